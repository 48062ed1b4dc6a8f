//! Promises 2 and 3 by trial, the fast search against the plain one, equality against the specification's sentence,
//! and that no input makes anything panic.

use oracle::cases::{result, Oracle};
use oracle::check::check;
use oracle::equality::Values;
use oracle::random::{arities, Maker, Random};
use oracle::terms::{Shape, Term};

#[test]
fn values_solve_exactly_if_they_fit_an_answer() {
    let tally = oracle::on_deep_stack(|| check(2024, 400)).expect("as promised");
    assert_eq!(tally.questions, 400);
    assert!(tally.done > 250 && tally.solving > 10_000, "{tally:?}");
    assert!(tally.ends.iter().all(|&met| met > 50), "{tally:?}");
}

/// Whoever wants more cases counts the seed up.
#[test]
fn nearby_seeds_are_unrelated() {
    let mut drawn = std::collections::HashSet::new();
    for seed in 0..300 {
        let mut random = Random::new(seed);
        assert!((0..300).all(|_| drawn.insert(random.draw())), "{seed}");
    }
}

/// The specification, 2.2: the kernels are both empty sets, or the same functor with equal arguments; and each
/// member of either term is equal to some member of the other.
fn equal_by_the_sentence(left: &Term, right: &Term) -> bool {
    let (these, kernel) = left.strip();
    let (those, other) = right.strip();
    let kernels = match (kernel.shape(), other.shape()) {
        (Shape::Empty, Shape::Empty) => true,
        (Shape::Functor(f, a), Shape::Functor(g, b)) => {
            f == g && a.iter().zip(b).all(|(a, b)| equal_by_the_sentence(a, b))
        }
        _ => false,
    };
    let within = |some: &[Term], all: &[Term]| {
        some.iter()
            .all(|s| all.iter().any(|a| equal_by_the_sentence(s, a)))
    };
    kernels && within(&these, &those) && within(&those, &these)
}

#[test]
fn numbers_agree_with_the_sentence() {
    let mut random = Random::new(7);
    let mut alike = 0;
    for _ in 0..4000 {
        let arities = arities(&mut random);
        let budget = random.between(1, 12);
        let mut maker = Maker::ground(&mut random, &arities);
        let left = maker.term(budget);
        let same = maker.rewritten(&left);
        let other = maker.term(budget);
        let mut values = Values::default();
        assert_eq!(values.of_ground(&left), values.of_ground(&same));
        assert!(equal_by_the_sentence(&left, &same));
        let equal = values.of_ground(&left) == values.of_ground(&other);
        assert_eq!(equal, equal_by_the_sentence(&left, &other));
        alike += u32::from(equal);
    }
    assert!(alike > 100);
}

#[test]
fn fresh_cases_have_results() {
    oracle::on_deep_stack(|| {
        for case in oracle::generate::cases(77, 3000) {
            result(&mut Oracle, &case).expect("a case");
        }
    });
}

#[test]
fn malformed_cases_are_told() {
    for case in [
        "",
        "text",
        "text\t0",
        "text\t0g",
        "text\t00\t",
        "run\t1\t1\t1\t1",
        "run\t-1\t1\t1\t1\t00",
        "run\t18446744073709551616\t1\t1\t1\t00",
        "read\t00\t1",
        "read\t00\t1\t-1",
        "read\t00\t18446744073709551616\t1",
        "runw\t1\t0\t0\t\t1\t1\t1\t1",
        "runw\t1\t0\t0\t\t1\t1\t1\t1\t",
        "runw\t1\t0\t0\t\t1\t1\t1\t18446744073709551616\t1",
        "equal\t0\t65536",
        "equal\t256\t0",
        "equal\t0\t0,",
        "equal\t0\t,0",
        "equal\t+0\t0,0",
        "values\t1\t0\t1\t0,0",
        "writel\t0\t0\t0\t0\t0\t",
        "other\t1",
    ] {
        assert!(result(&mut Oracle, case).is_err(), "{case:?}");
    }
}

#[test]
fn random_bytes_make_nothing_panic() {
    let mut random = Random::new(11);
    for _ in 0..20_000 {
        let bytes: Vec<u8> = (0..random.below(60))
            .map(|_| *random.pick(b"edition=1\nunkowsariesqlfgh0123456789x{}(),|"))
            .collect();
        oracle::solve::solve(&bytes);
        let start = b"edition=1\nunknowns=3\narities=0,1,2\nequations=1\nleft=";
        let term: Vec<u8> = (0..random.below(20))
            .map(|_| *random.pick(b"x0f12{}{},|()\nright="))
            .collect();
        oracle::solve::solve(&[&start[..], &term].concat());
    }
}
