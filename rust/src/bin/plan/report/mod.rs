//! What there is to say of a plan: the question, a row for each distinct group, and whether these are all. The table and the page say the same words in the same order.
mod page;
mod table;

use crate::ask::Why;
use crate::loan::Loan;
use crate::numbers::{count, grouped};
use crate::plan::{quoted, Plan};
use crate::terms::unknowns;
use mensorique::{most, Answers, End, Limits, Refusal, Term};
use std::collections::{HashMap, HashSet};
use std::time::Duration;

/// One distinct group, or one for each equation.
pub struct Row {
    pub groups: Vec<String>,
    /// How many answers make it.
    pub listed: String,
    /// Which unknowns may have any value.
    pub open: String,
    /// The distinct ways of filling the places that make it, as many as are shown; then how many more there are.
    pub ways: Vec<String>,
}

pub struct Report {
    pub asked: Vec<String>,
    /// A heading for each column, the number's and the groups' among them.
    pub columns: Vec<String>,
    pub rows: Vec<Row>,
    pub counts: String,
    pub is_final: bool,
    /// Whether these are all; the rest of the lines say more about that.
    pub verdict: String,
    pub advice: Vec<String>,
}

/// What came of asking.
pub struct Outcome {
    pub answers: Option<Answers>,
    pub why: Why,
    pub loan: Loan,
}

impl Report {
    pub fn new(plan: &Plan, outcome: &Outcome, ways: usize) -> Result<Report, Refusal> {
        let labels = plan.equations.iter().enumerate().map(|(i, equation)| {
            let numbered = || match plan.equations.len() {
                1 => "group".to_string(),
                _ => format!("group {}", i + 1),
            };
            equation.label.as_deref().map_or_else(numbered, quoted)
        });
        let mut columns = vec!["#".to_string()];
        columns.extend(labels);
        columns.extend(["listed", "open", "places"].map(String::from));
        let rows = match &outcome.answers {
            Some(answers) => rows(plan, answers, ways)?,
            None => Vec::new(),
        };
        let listed = outcome.answers.as_ref().map_or(0, Answers::len);
        let visited = outcome.answers.as_ref().map_or(0, Answers::visited);
        let counts = [
            count(listed as u64, "answer"),
            count(rows.len() as u64, "distinct group"),
            count(visited, "node") + " visited",
        ];
        let (verdict, advice) = verdict(outcome, rows.is_empty());
        Ok(Report {
            asked: plan.equations.iter().map(|e| plan.written(e)).collect(),
            columns,
            rows,
            counts: counts.join(", "),
            is_final: matches!(outcome.why, Why::End(End::Done)),
            verdict,
            advice,
        })
    }
}

/// A row before it is written: its groups, how many answers make it, and the values of the unknowns in each way.
struct Made<'a> {
    sides: &'a [Term],
    listed: usize,
    fillings: Vec<&'a [Term]>,
}

/// A row for each distinct group: the left sides with all values put in, to which the right sides are equal.
fn rows(plan: &Plan, answers: &Answers, shown: usize) -> Result<Vec<Row>, Refusal> {
    let sides = plan.equations.iter().map(|equation| equation.left.clone());
    let unknowns = (0..).take(plan.open.len()).map(Term::Unknown);
    let all: Vec<Term> = sides.chain(unknowns).collect();
    let unused = unused(plan);
    // Distinct ways, in the order in which they were first listed; those of one group have the same sides in the same writing.
    let ways = answers.groups(&all)?;
    let mut row_of = HashMap::new();
    let mut made: Vec<Made> = Vec::new();
    for way in &ways {
        let (sides, values) = way.terms.split_at(plan.equations.len());
        let row = *row_of.entry(sides).or_insert(made.len());
        if row == made.len() {
            made.push(Made {
                sides,
                listed: 0,
                fillings: Vec::new(),
            });
        }
        made[row].listed += way.listed.len();
        made[row].fillings.push(values);
    }
    let row = |made: Made| {
        let Made {
            sides,
            listed,
            fillings,
        } = made;
        let first = fillings.iter().take(shown);
        let mut ways: Vec<String> = first.map(|values| filling(plan, values)).collect();
        if fillings.len() > shown {
            let more = (fillings.len() - shown) as u64;
            ways.push(format!("and {}", count(more, "more way")));
        }
        Row {
            groups: sides.iter().map(|side| plan.group(side)).collect(),
            listed: grouped(listed as u64),
            open: open(plan, sides, &unused),
            ways,
        }
    };
    Ok(made.into_iter().map(row).collect())
}

/// What every unknown stands for, but for those that stand for themselves.
fn filling(plan: &Plan, values: &[Term]) -> String {
    if values.is_empty() {
        return "nothing to fill".to_string();
    }
    let filled = (0..)
        .zip(values)
        .filter(|(i, value)| **value != Term::Unknown(*i));
    let filled = filled.map(|(i, value)| format!("{} = {}", plan.unknown(i), plan.member(value)));
    match filled.collect::<Vec<_>>().join(", ").as_str() {
        "" => "any".to_string(),
        filled => filled.to_string(),
    }
}

/// The unknowns that stand in no equation.
fn unused(plan: &Plan) -> Vec<u16> {
    let sides = plan.equations.iter().flat_map(|e| [&e.left, &e.right]);
    let used: HashSet<u16> = sides.flat_map(unknowns).collect();
    let all = (0..).take(plan.open.len());
    all.filter(|i| !used.contains(i)).collect()
}

/// The unknowns that are left in the groups, and those that stand nowhere.
fn open(plan: &Plan, groups: &[Term], unused: &[u16]) -> String {
    let left = groups.iter().flat_map(unknowns);
    let mut open: Vec<u16> = left.chain(unused.iter().copied()).collect();
    open.sort();
    open.dedup();
    let names: Vec<String> = open.into_iter().map(|i| plan.unknown(i)).collect();
    match names.as_slice() {
        [] => "nothing".to_string(),
        names => names.join(", "),
    }
}

/// Whether these are all; then, where they need not be, what that means and what to lend.
fn verdict(outcome: &Outcome, is_empty: bool) -> (String, Vec<String>) {
    let limits = outcome.loan.limits();
    let (reason, lend) = match outcome.why {
        Why::End(End::Done) => {
            let all = match is_empty {
                true => "these are all: there is none, whatever is put in",
                false => "these are all",
            };
            return (all.to_string(), Vec::new());
        }
        Why::End(end) => short(end, limits),
        Why::Time => {
            let time = outcome.loan.time.unwrap_or_default();
            let more = time.saturating_add(time).max(Duration::from_secs(1));
            let lend = format!("lend more time: --time {}", more.as_secs_f64());
            (format!("{} s are too short", time.as_secs_f64()), lend)
        }
        Why::Interrupted => (
            "it was interrupted".to_string(),
            "let it run on".to_string(),
        ),
    };
    let true_so_far = match is_empty {
        true => "nothing is listed yet, and that says nothing: there may be some",
        false => "what is listed is true, and there may be more",
    };
    let advice = vec![true_so_far.to_string(), lend];
    (format!("not finished: {reason}"), advice)
}

/// What was short, and how to lend more of it.
fn short(end: End, limits: Limits) -> (String, String) {
    let lend = |what: &str, lent: u64, most: u64| match lent < most {
        true => {
            let more = lent.saturating_add(lent).clamp(1, most);
            format!("lend more {what}: --{what} {more}")
        }
        false => format!("no more {what} can be lent: ask for less, with fewer members a side"),
    };
    let Limits {
        steps,
        depth,
        size,
        answer_words,
    } = limits;
    let (depth, size, space) = (depth as u64, size as u64, answer_words as u64);
    match end {
        End::Depth => (
            format!("a node is deeper than {}", grouped(depth)),
            lend("depth", depth, most::DEPTH as u64),
        ),
        End::Size => (
            format!("a node has more than {}", count(size, "symbol")),
            lend("size", size, most::SIZE as u64),
        ),
        End::Space => (
            format!("an answer does not fit {} of space", count(space, "word")),
            lend("space", space, u64::MAX),
        ),
        End::Names => (
            "a node needs one unknown too many".to_string(),
            "ask for less, with fewer places and rests".to_string(),
        ),
        End::Done | End::Steps => (
            format!("{} spent, and a node is due", count(steps, "step")),
            lend("steps", steps, most::STEPS),
        ),
    }
}
