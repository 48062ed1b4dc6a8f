//! The edges of equality and of values: the specification's specimens, deep and long rows, and the refusals of rows.

use super::{add, words, Edge};

fn equal(edges: &mut Vec<Edge>, why: &'static str, row: &str, result: &str) {
    // f0, f1, f2 are constants, f3 has one argument.
    add(edges, why, format!("equal\t0,0,0,1\t{row}"), result);
}

pub fn edges(edges: &mut Vec<Edge>) {
    equal(edges, "{a} and {a,a}", "1,2000,0,1,2000,1,2000,0", "equal");
    equal(
        edges,
        "{{a},a} and {a}",
        "1,1,2000,0,1,2000,0,1,2000,0",
        "differ",
    );
    let row = "1,2000,1,1,2001,0,1,2002,0,1,1,2000,1,2001,0,1,2002,0";
    equal(edges, "{a,{b},c} and {{a,b},c}", row, "differ");
    equal(edges, "{a|b} and {a}", "1,2000,2001,1,2000,0", "differ");
    equal(
        edges,
        "{a,b|c} and {b,a,b|c}",
        "1,2000,1,2001,2002,1,2001,1,2000,1,2001,2002",
        "equal",
    );
    equal(edges, "{a|c} and c", "1,2000,2002,2002", "differ");
    equal(edges, "{a} and {a,b}", "1,2000,0,1,2000,1,2001,0", "differ");
    equal(edges, "{a,b} and {a}", "1,2000,1,2001,0,1,2000,0", "differ");
    equal(edges, "{} and {{}}", "0,1,0,0", "differ");
    equal(edges, "{} and {}", "0,0", "equal");
    equal(
        edges,
        "g({a,b}) and g({b,a})",
        "2003,1,2000,1,2001,0,2003,1,2001,1,2000,0",
        "equal",
    );
    equal(
        edges,
        "{a|g({a})} and {a|g({a,a})}",
        "1,2000,2003,1,2000,0,1,2000,2003,1,2000,1,2000,0",
        "equal",
    );
    rows(edges);
    values(edges);
}

fn rows(edges: &mut Vec<Edge>) {
    // {{..{}..}}, as deep as two in a row can be, and one 2,000 deep.
    let twin = |left, right| words(&[(1, left), (0, left + 1), (1, right), (0, right + 1)]);
    equal(edges, "deep and alike", &twin(1023, 1023), "equal");
    equal(edges, "deep and off by one", &twin(1022, 1023), "differ");
    equal(edges, "2,000 deep", &twin(2000, 47), "differ");
    equal(edges, "the 4,097th word", &twin(2047, 1), "refused 3 4096");
    let long = words(&[(65535, 1), (0, 4096)]);
    equal(edges, "whatever stands before it", &long, "refused 3 4096");
    equal(edges, "left over", &words(&[(0, 4096)]), "refused 8 2");
    for (row, place) in [
        ("", 0),
        ("0", 1),
        ("0,0,0", 2),
        ("1000,0", 0),
        ("0,1,1000,0", 2),
        ("2004,0", 0),
        ("0,2", 1),
        ("0,2003", 2),
        ("1,0", 2),
        ("0,65535", 1),
        ("999,1000,1999", 0),
    ] {
        let why = "words that form no two ground terms";
        equal(edges, why, row, &format!("refused 8 {place}"));
    }
    let why = "arities come first";
    add(edges, why, "equal\t9\t7".into(), "refused 3 0");
    add(edges, why, "equal\t255\t0,0".into(), "refused 3 0");
    let many = words(&[(0, 257)]);
    add(edges, why, format!("equal\t{many}\t0,0"), "refused 3 0");
    add(edges, "no functors", "equal\t\t0,0".into(), "equal");
}

fn values(edges: &mut Vec<Edge>) {
    for (why, case, result) in [
        ("x0 = {a|x0}", "1 0 1 1000,1,2000,1000 1,2000,0", "yes"),
        (
            "x0 = {a|x0}",
            "1 0 1 1000,1,2000,1000 1,2000,1,2000,0",
            "yes",
        ),
        ("x0 = {a|x0}", "1 0 1 1000,1,2000,1000 1,2000,2000", "yes"),
        ("x0 = {a|x0}", "1 0 1 1000,1,2000,1000 0", "no"),
        ("x0 = {a|x0}", "1 0 1 1000,1,2000,1000 2000", "no"),
        ("no unknown, no equation", "0  0  ", "yes"),
        ("no unknown", "0 0 1 2000,2000 ", "yes"),
        ("no unknown", "0 0 1 2000,0 ", "no"),
        (
            "values in order",
            "2 0 1 1000,1,1001,0 1,2000,0,2000",
            "yes",
        ),
        ("values in order", "2 0 1 1000,1,1001,0 2000,1,2000,0", "no"),
        ("all equations", "1 0 2 1000,1000,1000,0 2000", "no"),
        ("an unused unknown has a value", "2 0 0  0,0", "yes"),
        ("an unused unknown has a value", "2 0 0  0", "refused 8 1"),
        ("one value for each unknown", "1 0 0  0,0", "refused 8 1"),
        ("one value for each unknown", "0 0 0  0", "refused 8 0"),
        ("values are ground", "1 0 0  1000", "refused 8 0"),
        ("values are ground", "1 0 0  1,2000,1000", "refused 8 2"),
        (
            "functors that the question declares",
            "1 0 0  2001",
            "refused 8 0",
        ),
        (
            "the question is tested before the row",
            "1 0 1 0 7",
            "refused 8 1",
        ),
        (
            "the question is tested before the row",
            "257 0 0  7",
            "refused 3 0",
        ),
        (
            "the question is tested before the row",
            "1 9 0  0",
            "refused 3 0",
        ),
        (
            "the question is tested before the row",
            "1 0 65  0",
            "refused 3 0",
        ),
        (
            "counts at full width",
            "18446744073709551615 0 0  0",
            "refused 3 0",
        ),
        ("counts at full width", "4294967297 0 0  0", "refused 3 0"),
        (
            "counts at full width",
            "1 0 18446744073709551615  0",
            "refused 3 0",
        ),
    ] {
        add(
            edges,
            why,
            format!("values\t{}", case.replace(' ', "\t")),
            result,
        );
    }
    let long = words(&[(0, 4097)]);
    let case = |words: &str, row: &str| format!("values\t1\t0\t1\t{words}\t{row}");
    let why = "the 4,097th word of the question, then of the row";
    add(edges, why, case(&long, "7"), "refused 3 4096");
    add(edges, why, case("7", &long), "refused 8 0");
    add(edges, why, case("0,0", &long), "refused 3 4096");
    let row = words(&[(0, 256)]);
    add(
        edges,
        "256 values",
        format!("values\t256\t\t1\t1255,0\t{row}"),
        "yes",
    );
    let deep = words(&[(1, 2047), (0, 2048)]);
    add(
        edges,
        "a value 2,047 deep",
        case("1000,1,1000,0", &deep),
        "no",
    );
}
