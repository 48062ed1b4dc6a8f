//! How large and deep a term is, and which unknowns it has.
use mensorique::Term;

/// How many symbols a term has, by going through what is still to be counted.
pub fn symbols(term: &Term) -> usize {
    let (mut count, mut due) = (0, vec![term]);
    while let Some(term) = due.pop() {
        count += 1;
        match term {
            Term::Functor(_, arguments) => due.extend(arguments),
            Term::Set(members, tail) => {
                // Each member adding is a symbol, and the first is counted.
                count += members.len() - 1;
                due.extend(members);
                due.push(tail);
            }
            _ => {}
        }
    }
    count
}

/// The unknowns of a term, each once, as they stand.
pub fn unknowns(term: &Term) -> Vec<u16> {
    let (mut found, mut due) = (Vec::new(), vec![term]);
    while let Some(term) = due.pop() {
        match term {
            Term::Unknown(i) if !found.contains(i) => found.push(*i),
            Term::Functor(_, arguments) => due.extend(arguments.iter().rev()),
            Term::Set(members, tail) => {
                due.push(tail);
                due.extend(members.iter().rev());
            }
            _ => {}
        }
    }
    found
}

/// How deep the brackets of a term stand within each other.
pub fn nesting(term: &Term) -> usize {
    let inside = match term {
        Term::Functor(_, arguments) => arguments,
        Term::Set(members, _) => members,
        _ => return 0,
    };
    inside
        .iter()
        .map(|term| 1 + nesting(term))
        .max()
        .unwrap_or(0)
}
