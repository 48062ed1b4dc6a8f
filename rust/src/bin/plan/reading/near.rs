//! The declared name that a name was meant to be, perhaps.

/// How many letters must be put in, left out or replaced to make one name of the other.
fn distance(one: &str, other: &str) -> usize {
    let other: Vec<char> = other.chars().collect();
    // The distances from the letters so far to each beginning of the other.
    let mut row: Vec<usize> = (0..=other.len()).collect();
    for letter in one.chars() {
        let mut corner = row[0];
        row[0] += 1;
        for (i, &against) in other.iter().enumerate() {
            let replaced = corner + usize::from(letter != against);
            corner = row[i + 1];
            row[i + 1] = replaced.min(row[i] + 1).min(corner + 1);
        }
    }
    row[other.len()]
}

/// The name that is nearest, where less than half of its letters are others. Of two that are as near it is the first by the alphabet.
pub fn nearest<'a>(name: &str, names: impl Iterator<Item = &'a String>) -> Option<&'a str> {
    let near = names.map(|other| (distance(name, other), other.as_str()));
    let (distance, near) = near.min()?;
    (distance + distance < near.chars().count()).then_some(near)
}
