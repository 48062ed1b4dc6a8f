//! The edges of a run: its limits, and its ends in their order.

use super::running::run;
use super::{add, Edge};

pub fn edges(edges: &mut Vec<Edge>) {
    limits(edges);
    ends(edges);
}

fn limits(edges: &mut Vec<Edge>) {
    for (loan, result) in [
        ("1000000000 1024 8192 1", "0 1 1 0"),
        ("1000000001 1024 8192 1", "refused 3 0"),
        ("1000000000 1025 8192 1", "refused 3 0"),
        ("1000000000 1024 8193 1", "refused 3 0"),
        ("18446744073709551615 0 0 0", "refused 3 0"),
        ("0 18446744073709551615 0 0", "refused 3 0"),
        ("0 0 18446744073709551615 0", "refused 3 0"),
        ("4294967296 0 0 0", "refused 3 0"),
        ("0 4294967296 0 0", "refused 3 0"),
        ("0 0 65536 0", "refused 3 0"),
    ] {
        run(edges, "the run limits", loan, 0, &[], result);
    }
    let why = "the limits are tested before the text";
    add(edges, why, "run\t0\t1025\t0\t0\t78".into(), "refused 3 0");
    add(edges, why, "run\t0\t1024\t0\t0\t78".into(), "refused 1 0");
    add(edges, "no text", "run\t0\t0\t0\t0\t".into(), "refused 1 0");
}

fn ends(edges: &mut Vec<Edge>) {
    let tail = ["x0 = {f0|x0}"];
    for (loan, result) in [
        ("3 2 4 5", "0 3 1 1,0,1,2000,1001"),
        ("2 2 4 5", "20 2 0 -"),
        ("3 1 4 5", "21 2 0 -"),
        ("3 2 3 5", "22 0 0 -"),
        ("3 2 4 4", "23 3 0 -"),
        ("0 0 0 0", "20 0 0 -"),
        ("1 0 4 0", "20 1 0 -"),
        ("2 0 4 0", "21 1 0 -"),
        ("1 0 3 0", "22 0 0 -"),
        ("3 1 4 0", "21 2 0 -"),
        ("4 2 4 6", "0 3 1 1,0,1,2000,1001"),
    ] {
        run(edges, "the ends, in their order", loan, 1, &tail, result);
    }
    run(edges, "the root is an answer", "1 0 0 1", 3, &[], "0 1 1 0");
    run(
        edges,
        "an answer that does not fit",
        "1 0 0 0",
        3,
        &[],
        "23 1 0 -",
    );
    run(edges, "no step for the root", "0 0 0 1", 3, &[], "20 0 0 -");
    // Root, decompose, drop; then x0 = {} over three nodes, and x0 = {f0} over two.
    let pair = ["f3(x0) = f3(x0)", "{f0|x0} = {f0}"];
    let why = "the second of two answers";
    run(edges, why, "8 5 10 8", 1, &pair, "0 8 2 1,0,0,1,0,1,2000,0");
    run(edges, why, "7 5 10 8", 1, &pair, "20 7 1 1,0,0");
    run(edges, why, "8 5 10 7", 1, &pair, "23 8 1 1,0,0");
    run(edges, why, "8 5 10 2", 1, &pair, "23 6 0 -");
    // Root 1+5+2+3; the child's binding 1+5, f3 and its set 1+5, the set with itself added 1+5+5.
    let grows = ["x0 = {f0,f1}", "f3(x0) = {x0|x0}"];
    run(
        edges,
        "the size of a child",
        "9 9 22 9",
        1,
        &grows,
        "22 1 0 -",
    );
    run(
        edges,
        "the size of a child",
        "9 9 23 9",
        1,
        &grows,
        "0 3 0 -",
    );
    // With x1 bound, the pile has 1 + 7 symbols and the binding 1 + 5.
    let pile = ["x0 = {x1|x0}", "x1 = {f0,f1}"];
    let listed = "0 4 1 2,1,1,2000,1,2001,0,0,1,1,2000,1,2001,0,1002";
    run(edges, "the pile's size", "9 9 14 99", 2, &pile, listed);
    run(edges, "the pile's size", "9 9 13 99", 2, &pile, "22 2 0 -");
    let dead = ["{f0|x0} = {{x0}}"];
    run(
        edges,
        "a dead end has size 0",
        "9 9 10 9",
        1,
        &dead,
        "0 4 0 -",
    );
    run(
        edges,
        "a dead end has a depth",
        "9 1 10 9",
        1,
        &dead,
        "21 2 0 -",
    );
}
