//! Terms with values put in, with names, and the distinct groups of a list.
use mensorique::{equal, equal_held, Cause, Limits, Names, Question, Refusal, Term, What};

const ARITIES: [u8; 4] = [0, 0, 0, 1];

fn a() -> Term {
    Term::constant(0)
}

fn b() -> Term {
    Term::constant(1)
}

fn c() -> Term {
    Term::constant(2)
}

fn x(i: u16) -> Term {
    Term::Unknown(i)
}

fn with(members: impl IntoIterator<Item = Term>, tail: Term) -> Term {
    Term::set_with(members, tail)
}

fn asked(unknowns: usize, equations: &[(Term, Term)]) -> Question {
    let mut question = Question::new(unknowns, ARITIES);
    for (left, right) in equations {
        question.equate(left, right).unwrap();
    }
    question
}

/// The groups as text, with how often each is listed.
fn groups(question: &Question, terms: &[Term]) -> Vec<(String, usize)> {
    let answers = question.run(Limits::default()).unwrap();
    let groups = answers.groups(terms).unwrap();
    let mut places: Vec<usize> = groups.iter().flat_map(|g| g.listed.clone()).collect();
    places.sort();
    assert!(places.into_iter().eq(0..answers.len()));
    let text = |terms: &[Term]| terms.iter().map(|t| t.to_string() + ";").collect();
    let rows = groups.iter().map(|g| (text(&g.terms), g.listed.len()));
    rows.collect()
}

fn row(group: &str, listed: usize) -> (String, usize) {
    (group.to_string(), listed)
}

#[test]
fn values_are_put_in_values() {
    // x0 = {f0|x1} and x1 = {f3(x2)|x3}, with x2 and x3 left open
    let question = asked(
        4,
        &[
            (x(0), with([a()], x(1))),
            (x(1), with([Term::Functor(3, vec![x(2)])], x(3))),
        ],
    );
    let answers = question.run(Limits::default()).unwrap();
    let answer = answers.iter().next().unwrap();
    assert_eq!(answer.value(0), Some(&with([a()], x(1))));
    assert_eq!(answer.value(2), None);
    assert_eq!(answer.filled(&x(0)).unwrap().to_string(), "{f0,f3(x2)|x3}");
    assert_eq!(answer.filled(&x(3)).unwrap(), x(3));
    // what the question hasn't is filled too
    let term = Term::Functor(77, vec![x(1), x(500), Term::Empty]);
    assert_eq!(
        answer.filled(&term).unwrap().to_string(),
        "f77({f3(x2)|x3},x500,{})"
    );
    assert_eq!(answer.len(), 2);
    assert_eq!((&answer).into_iter().count(), answer.into_iter().count());
}

/// x0 = {x1,x1}, x1 = {x2,x2}, ..: a short answer whose first value has more symbols than any memory.
#[test]
fn values_too_large_are_refused() {
    let pairs: Vec<_> = (0..60)
        .map(|i| (x(i), Term::set([x(i + 1), x(i + 1)])))
        .collect();
    let answers = asked(61, &pairs)
        .run(Limits {
            size: 8192,
            depth: 1024,
            ..Limits::default()
        })
        .unwrap();
    let answer = answers.iter().next().unwrap();
    let refusal = answer.filled(&x(0)).unwrap_err();
    assert_eq!((refusal.cause, refusal.place), (Cause::Limit, 8192));
    assert_eq!(
        refusal.to_string(),
        "size: 8193 is above the limit 8192".to_string()
    );
    assert!(answer.filled(&x(55)).is_ok());
    let refusal = answers.groups(&[x(50)]).unwrap_err();
    assert_eq!(refusal.culprit.unwrap().what, What::Words);
    assert_eq!(answers.groups(&[x(55)]).unwrap().len(), 1);
}

#[test]
fn terms_are_shown_with_names() {
    let names = Names::new(["x"], ["algebra", "logic"]);
    let term = with(
        [a(), b(), c(), Term::Functor(3, vec![x(0), Term::Empty])],
        x(1),
    );
    assert_eq!(
        term.shown(&names).to_string(),
        "{algebra,logic,f2,f3(x,{})|x1}"
    );
    assert_eq!(
        format!("{:#}", term.shown(&names)),
        "{algebra, logic, f2, f3(x, {}) | x1}"
    );
    assert_eq!((names.unknown(0), names.unknown(1)), (Some("x"), None));
    assert_eq!((names.functor(1), names.functor(2)), (Some("logic"), None));
}

#[test]
fn the_planners_answers_are_one_group() {
    let lab = |of: Term| Term::Functor(3, vec![of]);
    let left = Term::set([a(), x(0), lab(x(1))]);
    let right = with([b(), lab(c())], x(2));
    let question = asked(3, &[(left.clone(), right.clone())]);
    let group = "{f0,f1,f3(f2)};";
    assert_eq!(groups(&question, &[left]), [row(group, 4)]);
    assert_eq!(groups(&question, &[right]), [row(group, 4)]);
    let both = groups(&question, &[x(0), x(1)]);
    assert_eq!(both, [row("f1;f2;", 4)]);
    assert_eq!(groups(&question, &[x(2)]).len(), 4);
    assert_eq!(groups(&question, &[]), [row("", 4)]);
}

#[test]
fn a_list_without_answers_has_no_groups() {
    let question = asked(0, &[(a(), b())]);
    assert_eq!(groups(&question, &[a()]), []);
}

/// Each path numbers its new unknowns for itself; those of the question keep their numbers.
#[test]
fn new_unknowns_are_numbered_anew() {
    // {x0|x1} = {f0|x2}: x0 is f0 or another, and whatever else there is is x3.
    let left = with([x(0)], x(1));
    let question = asked(3, &[(left.clone(), with([a()], x(2)))]);
    let all = groups(&question, &[left]);
    assert_eq!(all, [row("{f0|x3};", 3), row("{f0,x0|x3};", 1)]);
    // Two equations beside each other: the first term's rest is x4, though the search makes it last.
    let question = asked(
        4,
        &[
            (with([a()], x(0)), with([b()], x(1))),
            (with([a()], x(2)), with([c()], x(3))),
        ],
    );
    let sides = [with([a()], x(2)), with([a()], x(0))];
    let all = groups(&question, &sides);
    assert_eq!(all, [row("{f0,f2|x4};{f0,f1|x5};", 1)]);
    // Within a term new unknowns are numbered as they stand in its writing.
    let both = Term::set([sides[0].clone(), sides[1].clone()]);
    let turned = Term::set([sides[1].clone(), sides[0].clone()]);
    let all = groups(&question, &[both]);
    assert_eq!(all, [row("{{f0,f1|x4},{f0,f2|x5}};", 1)]);
    assert_eq!(groups(&question, &[turned]), all);
    // Open places stay as they are.
    let question = asked(2, &[(Term::set([x(0), a()]), Term::set([a(), x(1)]))]);
    let all = groups(&question, &[Term::set([x(0), x(1)])]);
    assert_eq!(all, [row("{f0};", 15), row("{x1};", 1)]);
}

/// The archive's test is for ground terms, and 256 functors with what is held.
#[test]
fn unknowns_are_held_as_constants() {
    let same = |left: &Term, right: &Term| equal_held(&ARITIES, left, right);
    assert_eq!(same(&x(0), &x(0)), Ok(true));
    assert_eq!(same(&x(0), &x(1)), Ok(false));
    assert_eq!(same(&x(0), &a()), Ok(false));
    assert_eq!(
        same(&with([x(1), x(0)], x(0)), &with([x(0), x(1), x(1)], x(0))),
        Ok(true)
    );
    assert_eq!(same(&Term::set([x(0)]), &with([x(0)], x(0))), Ok(false));
    assert!(equal(&ARITIES, &x(0), &x(0)).is_err());
    let unknowns = |n| Term::set((0..n).map(x));
    assert_eq!(same(&unknowns(252), &unknowns(252)), Ok(true));
    let refusal = same(&unknowns(253), &unknowns(253)).unwrap_err();
    assert_eq!(refusal.culprit.unwrap().what, What::Functors);
    let cause = |result: Result<bool, Refusal>| result.unwrap_err().cause;
    assert_eq!(cause(same(&Term::constant(4), &a())), Cause::Undeclared);
    assert_eq!(cause(same(&Term::constant(3), &a())), Cause::Arguments);
    assert_eq!(cause(same(&x(1000), &a())), Cause::Undeclared);
    let many = vec![0; 65_535];
    assert_eq!(cause(equal_held(&many, &x(0), &x(1))), Cause::Limit);
}

/// A small generator, so that the test needs nothing else.
struct Random(u64);

impl Random {
    fn below(&mut self, n: u64) -> u64 {
        self.0 ^= self.0 << 13;
        self.0 ^= self.0 >> 7;
        self.0 ^= self.0 << 17;
        self.0 % n
    }

    fn term(&mut self, depth: u64) -> Term {
        match self.below(if depth == 0 { 5 } else { 9 }) {
            0 => Term::Empty,
            1 => a(),
            2 => b(),
            3 | 4 => x(self.below(2) as u16),
            5 => Term::Functor(3, vec![self.term(depth - 1)]),
            _ => {
                let members: Vec<Term> = (0..1 + self.below(3))
                    .map(|_| self.term(depth - 1))
                    .collect();
                let tail = self.term(0);
                with(members, tail)
            }
        }
    }
}

/// Another writing of a term: members in another order, and some of them twice.
fn rewritten(term: &Term, random: &mut Random) -> Term {
    match term {
        Term::Functor(k, arguments) => {
            let others = arguments.iter().map(|of| rewritten(of, random));
            Term::Functor(*k, others.collect())
        }
        Term::Set(members, tail) => {
            let mut others: Vec<Term> = Vec::new();
            for member in members {
                for _ in 0..1 + random.below(2) {
                    let at = random.below(others.len() as u64 + 1) as usize;
                    others.insert(at, rewritten(member, random));
                }
            }
            with(others, rewritten(tail, random))
        }
        other => other.clone(),
    }
}

/// Terms are written alike exactly if the archive finds them equal, and a writing is equal to its term.
#[test]
fn groups_are_those_of_the_laws() {
    let answers = asked(2, &[]).run(Limits::default()).unwrap();
    let mut random = Random(51);
    let mut same = 0;
    for _ in 0..3000 {
        let one = random.term(3);
        let other = match random.below(2) {
            0 => random.term(3),
            _ => rewritten(&one, &mut random),
        };
        let written =
            |term: &Term| answers.groups(std::slice::from_ref(term)).unwrap()[0].terms[0].clone();
        let alike = written(&one) == written(&other);
        assert_eq!(alike, equal_held(&ARITIES, &one, &other).unwrap());
        assert!(equal_held(&ARITIES, &one, &written(&one)).unwrap());
        same += usize::from(alike);
    }
    assert!((1500..2000).contains(&same), "{same} of 3000");
}

/// The deepest terms that are compared come back, within the stack of a spawned thread: 2,047 levels of functors, and 1,023 of sets.
#[test]
fn deep_groups_come_back() {
    let chain = || (0..2047).fold(a(), |term, _| Term::Functor(3, vec![term]));
    let nested = || (0..1023).fold(a(), |term, _| Term::set([term]));
    let question = asked(2, &[(Term::set([x(0), x(1)]), Term::set([a(), b()]))]);
    let answers = question.run(Limits::default()).unwrap();
    for deep in [chain(), nested()] {
        let groups = answers.groups(&[deep, x(0)]).unwrap();
        assert_eq!(groups.len(), 2);
    }
    let deeper = Term::set([nested(), nested()]);
    let refusal = answers.groups(&[deeper]).unwrap_err();
    assert_eq!(refusal.culprit.unwrap().what, What::Words);
    let both = |levels| (0..levels).fold(Term::set([x(0), x(1)]), |term, _| Term::set([term]));
    assert_eq!(answers.groups(&[both(1021)]).unwrap().len(), 1);
}
