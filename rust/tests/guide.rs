//! The code in `docs/GUIDE.md` stands in the examples, and what they print is what the guide shows.
use std::fs;
use std::path::Path;

#[test]
fn the_guide_shows_the_examples() {
    let root = Path::new(env!("CARGO_MANIFEST_DIR")).join("..");
    let guide = fs::read_to_string(root.join("docs/GUIDE.md")).unwrap();
    let mut shown = 0;
    for block in guide.split("\n```").skip(1).step_by(2) {
        let (kind, code) = block.split_once('\n').unwrap();
        let file = match kind {
            "c" => "planner.c",
            "cpp" => "planner.cc",
            "rust" => "planner.rs",
            "text" => "planner.expected",
            other => panic!("a block of {other:?}"),
        };
        let example = fs::read_to_string(root.join("examples").join(file)).unwrap();
        assert!(example.contains(code), "{file} has not:\n{code}");
        shown += 1;
    }
    assert_eq!(shown, 9);
}
