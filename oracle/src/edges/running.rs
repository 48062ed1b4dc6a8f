//! The edges of a search: the specification's specimens, and the kinds and order of its steps, worked out by hand.

use super::{add, Edge};
use crate::cases::hex;

/// A case of a run. The question is written as its equations, with f0, f1, f2 constants and f3(.).
pub fn run(
    edges: &mut Vec<Edge>,
    why: &'static str,
    loan: &str,
    unknowns: u32,
    equations: &[&str],
    result: &str,
) {
    let mut text = format!(
        "edition=1\nunknowns={unknowns}\narities=0,0,0,1\nequations={}\n",
        equations.len()
    );
    for equation in equations {
        let (left, right) = equation.split_once(" = ").unwrap_or((equation, ""));
        text.push_str(&format!("left={left}\nright={right}\n"));
    }
    let loan = loan.replace(' ', "\t");
    add(
        edges,
        why,
        format!("run\t{loan}\t{}", hex(text.as_bytes())),
        result,
    );
}

const WIDE: &str = "100000 96 256 4096";

pub fn edges(edges: &mut Vec<Edge>) {
    specimens(edges);
    steps(edges);
    splits(edges);
}

fn specimens(edges: &mut Vec<Edge>) {
    for (equations, result) in [
        (&["x0 = {f0|x0}"][..], "0 3 1 1,0,1,2000,1001"),
        (&["{f0|x0} = {f1|x0}"], "0 9 1 1,0,1,2000,1,2001,1001"),
        (&["x0 = {x0}"], "0 2 0 -"),
        (&["x0 = f3(x0)"], "0 2 0 -"),
        (&[], "0 1 1 0"),
    ] {
        run(edges, "the specimens", WIDE, 1, equations, result);
    }
}

fn steps(edges: &mut Vec<Edge>) {
    for (why, unknowns, equations, result) in [
        (
            "the same unknown on both sides",
            1,
            &["x0 = x0"][..],
            "0 2 1 0",
        ),
        ("both empty sets", 0, &["{} = {}"], "0 2 1 0"),
        (
            "an unknown bound to an unknown",
            2,
            &["x0 = x1"],
            "0 2 1 1,0,1001",
        ),
        (
            "turned round in the same step",
            1,
            &["f0 = x0"],
            "0 2 1 1,0,2000",
        ),
        (
            "turned round and postponed",
            1,
            &["{f0|x0} = x0"],
            "0 3 1 1,0,1,2000,1001",
        ),
        ("the tail and a member", 1, &["x0 = {x0|x0}"], "0 2 0 -"),
        (
            "deep inside a member",
            1,
            &["x0 = {f3({x0})|x0}"],
            "0 2 0 -",
        ),
        ("in a tail's argument", 1, &["x0 = {f0|f3(x0)}"], "0 2 0 -"),
        ("different functors", 0, &["f0 = f1"], "0 2 0 -"),
        ("functor and empty set", 0, &["f0 = {}"], "0 2 0 -"),
        ("empty set and functor", 0, &["{} = f3(f0)"], "0 2 0 -"),
        (
            "functor and a set with a member",
            1,
            &["f0 = {x0|f0}"],
            "0 2 0 -",
        ),
        (
            "a set with a member and the empty set",
            1,
            &["{f0|x0} = {}"],
            "0 2 0 -",
        ),
        ("arguments", 1, &["f3(x0) = f3(f0)"], "0 3 1 1,0,2000"),
        ("no arguments", 0, &["f0 = f0"], "0 2 1 0"),
        (
            "a new unknown counts from the declared ones",
            256,
            &["x9 = {f0|x9}"],
            "0 3 1 1,9,1,2000,1256",
        ),
        (
            "the pile is a queue",
            2,
            &["x0 = {f0|x0}", "x1 = {f1|x1}"],
            "0 5 1 2,0,1,2000,1002,1,1,2001,1003",
        ),
        (
            "entries of one unknown are joined in pile order",
            2,
            &["x0 = {f0|x0}", "x1 = {f2|x1}", "x0 = {f1|x0}"],
            "0 6 1 2,0,1,2000,1,2001,1002,1,1,2002,1003",
        ),
        (
            "joining: the unknown occurs in a member of a later entry",
            2,
            &["x0 = {x1|x0}", "x1 = f3(x0)"],
            "0 4 0 -",
        ),
        (
            "earlier bindings stay as written",
            2,
            &["x0 = f3(x1)", "x1 = f0"],
            "0 3 1 2,0,2003,1001,1,2000",
        ),
        (
            "a bound unknown's entries leave the pile for the end of the pending list",
            2,
            &["x0 = {f0|x0}", "x0 = {f0|x1}", "x1 = {}"],
            // x0 = {f0|x1}; pending x1 = {} and {f0|x1} = {f0,f0|x1}; then {f0} = {f0,f0}: two choices.
            "0 14 2 2,0,1,2000,1001,1,0,2,0,1,2000,1001,1,0",
        ),
    ] {
        run(edges, why, WIDE, unknowns, equations, result);
    }
}

fn splits(edges: &mut Vec<Edge>) {
    for (why, unknowns, equations, result) in [
        (
            "s = r is the last of the new equations, before the older ones",
            3,
            &["{x0|f3(x1)} = {f0|f3(f1)}", "x1 = x2"][..],
            "0 7 1 3,0,2000,1,2001,2,2001",
        ),
        (
            "a choice that binds an unknown to a term in which it occurs is itself the dead child",
            1,
            &["{f0|x0} = {{x0}}"],
            "0 4 0 -",
        ),
        (
            "an unknown in the other side's tail",
            1,
            &["{f0|x0} = {f0|f3(x0)}"],
            "0 3 0 -",
        ),
        (
            "a t picked by a u stands on the left",
            3,
            &["{x0} = {x1|x2}"],
            "0 6 2 2,2,0,0,1001,2,2,1,1000,0,0,1001",
        ),
        (
            "entries that leave the pile are t = {..|t}",
            3,
            // {x2} = {x1,x2}: the t is x2, and it is bound to x1 on both paths.
            &["x0 = {x1|x0}", "x0 = {x2}"],
            "0 13 2 2,0,1,1002,0,2,1001,2,0,1,1002,0,2,1001",
        ),
        (
            "one unknown tail on the right",
            1,
            &["{f0} = {f0|x0}"],
            "0 6 2 1,0,0,1,0,1,2000,0",
        ),
        (
            "the same unknown makes no such test when it is postponed",
            1,
            &["{f0|x0} = {{x0}|x0}"],
            "0 9 0 -",
        ),
        (
            "different unknowns always take a new one",
            2,
            &["{f0|x0} = {f0|x1}"],
            "0 9 4 2,0,1002,1,1002,2,0,1,2000,1002,1,1002,2,0,1002,1,1,2000,1002,2,0,1,2000,1002,1,1,2000,1002",
        ),
        (
            "r's value has s replaced",
            2,
            // t1 = f3(x0), u1 = f0: only both tails are live: x0 = {f0|x2}, x1 = {f3({f0|x2})|x2}.
            &["{f3(x0)|x0} = {f0|x1}"],
            "0 8 1 2,0,1,2000,1002,1,1,2003,1,2000,1002,1002",
        ),
        (
            "s occurs in T and r in U: dead by both together",
            2,
            &["{f3(x0)|x0} = {f3(x1)|x1}"],
            "0 13 1 2,0,1002,1,1002",
        ),
    ] {
        run(edges, why, WIDE, unknowns, equations, result);
    }
    run(
        edges,
        "two bindings of one step: s wholly, its pile entries first, then r",
        "9 96 256 100",
        2,
        &["x1 = {f0|x1}", "x0 = {f1|x0}", "{f2|x0} = {f2|x1}"],
        "20 9 1 3,0,1002,1,1002,2,1,2001,1,2000,1003",
    );
}
