//! Cases written by hand from the specification, with the results that it asks for: every refusal and its places,
//! the ends of a run, and the points where it is easily misread.
//!
//! Each refusal of each entry has at least one, and `tests/corpus.rs` counts them:
//!
//! | entry | kinds of case | refusals |
//! |---|---|---|
//! | `read_question` | `text`, `read` | 1 to 6; 7 for the arities' buffer, 7 for the words' |
//! | `write_question` | `writeq` | 3, 8, 6, 7 |
//! | `write_answers` | `writel` | 3, 8, 6, 7 |
//! | `equal` | `equal` | 3, 8 |
//! | `solves` | `values` | 3, 8 |
//! | `run` | `run`, `runw` | 3 for the limits, 3 and 8 for the question, 7 |

mod ends;
mod ground;
mod lending;
mod reading;
mod running;
mod writing;

/// A case with the result that the specification asks for, and why.
pub struct Edge {
    pub why: &'static str,
    pub case: String,
    pub result: String,
}

pub fn edges() -> Vec<Edge> {
    let mut edges = Vec::new();
    reading::edges(&mut edges);
    ends::edges(&mut edges);
    running::edges(&mut edges);
    writing::edges(&mut edges);
    ground::edges(&mut edges);
    lending::edges(&mut edges);
    edges
}

fn add(edges: &mut Vec<Edge>, why: &'static str, case: String, result: &str) {
    edges.push(Edge {
        why,
        case,
        result: result.to_string(),
    });
}

/// Comma separated words, each given as a word and how often it stands.
fn words(runs: &[(u16, usize)]) -> String {
    let mut words = Vec::new();
    for &(word, count) in runs {
        words.resize(words.len() + count, word);
    }
    crate::cases::joined(&words)
}
