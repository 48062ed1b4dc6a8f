//! Large inputs of reading, writing, `equal` and `solves`.

use oracle::random::question;
use oracle::terms::{Question, Term};

/// f0 is a constant, f1 has one argument, f2 has two.
pub const ARITIES: [u8; 3] = [0, 1, 2];

/// f1(..f1(term)..)
fn chain(length: usize, term: Term) -> Term {
    (0..length).fold(term, |term, _| Term::functor(1, vec![term]))
}

/// {..{term}..}
fn nested(depth: usize, term: Term) -> Term {
    (0..depth).fold(term, |term, _| Term::with(term, Term::empty()))
}

fn set(members: &[Term]) -> Term {
    Term::set(members, Term::empty())
}

/// As many symbols as there may be, with little nesting.
pub fn flat_question() -> Question {
    let members: Vec<Term> = (0..511).map(|i| chain(2, Term::unknown(i % 256))).collect();
    let side = chain(3, set(&members));
    question(256, &ARITIES, &[(side.clone(), side)])
}

/// As much nesting as there may be.
pub fn deep_question() -> Question {
    let side = (0..200).fold(Term::unknown(0), |term, i| match i % 2 {
        0 => Term::with(term, Term::unknown(1)),
        _ => Term::functor(2, vec![Term::functor(0, vec![]), term]),
    });
    question(2, &ARITIES, &vec![(side.clone(), side); 5])
}

/// {{}, {tree}, tree} with trees one lower, each set's members in the order given or turned round.
fn tree(height: usize, turned: bool) -> Term {
    if height == 0 {
        return Term::functor(0, vec![]);
    }
    let lower = tree(height - 1, turned);
    let mut members = [Term::empty(), nested(1, lower.clone()), lower];
    if turned {
        members.reverse();
    }
    set(&members)
}

fn chains_to(length: usize) -> Vec<Term> {
    (0..length).map(|n| chain(n, Term::empty())).collect()
}

/// Rows of two terms. On the nested ones a comparison that tries each pair of members in both directions would not come back.
pub fn pairs() -> Vec<(&'static str, Term, Term)> {
    let ladder = |rungs| {
        (0..rungs).fold(Term::empty(), |term, _| {
            set(&[term, nested(1, Term::empty())])
        })
    };
    let alike = set(&vec![Term::empty(); 1000]);
    let mut chains = chains_to(60);
    let upwards = set(&chains);
    chains.reverse();
    vec![
        (
            "nested sets",
            nested(1023, Term::empty()),
            nested(1023, Term::empty()),
        ),
        (
            "nested sets, one deeper",
            nested(1022, Term::empty()),
            nested(1023, Term::empty()),
        ),
        (
            "functor chains",
            chain(2047, Term::empty()),
            chain(2047, Term::empty()),
        ),
        ("1,000 members of one value", alike.clone(), alike),
        ("a ladder of two members each", ladder(340), ladder(340)),
        ("a tree and its mirror", tree(7, false), tree(7, true)),
        ("60 members and their reverse", upwards, set(&chains)),
    ]
}

/// Questions in which large values stand many times.
pub fn solutions() -> Vec<(&'static str, Question, Vec<Term>)> {
    let (x0, x1) = (Term::unknown(0), Term::unknown(1));
    let more = Term::with(Term::empty(), x0.clone());
    let tail = question(1, &ARITIES, &[(x0.clone(), more)]);
    let mut members = vec![x1; 19];
    members.push(x0.clone());
    let twenty = question(2, &ARITIES, &[(set(&vec![x0; 20]), set(&members))]);
    let over = |tail: &Term| Term::with(Term::empty(), tail.clone());
    let tails: Vec<Term> = members.iter().map(over).collect();
    let tailed = question(
        2,
        &ARITIES,
        &[(set(&vec![tails[19].clone(); 20]), set(&tails))],
    );
    let mut longer = chains_to(61);
    longer.reverse();
    let chains = vec![chain(1999, Term::empty()); 2];
    let sets = vec![nested(999, Term::empty()), nested(1000, Term::empty())];
    vec![
        (
            "x0 = {{}\\|x0}",
            tail,
            vec![Term::with(Term::empty(), nested(1990, Term::empty()))],
        ),
        ("{x0 ×20} = {x1 ×19, x0}, one value", twenty.clone(), chains),
        ("{x0 ×20} = {x1 ×19, x0}, two values", twenty, sets),
        (
            "{{{}\\|x0} ×20} = {{{}\\|x1} ×19, {{}\\|x0}}",
            tailed,
            vec![set(&chains_to(60)), set(&longer)],
        ),
    ]
}
