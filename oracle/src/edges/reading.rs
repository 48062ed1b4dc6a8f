//! The reader's edges. In a text with a fault, `^` stands before the byte that is the refusal's place.

use super::{add, Edge};
use crate::cases::hex;

/// The lines before the equations of a question with x0, x1 and f0, f1(.), f2(.,.).
const HEADER: &str = "edition=1\nunknowns=2\narities=0,1,2\nequations=1\n";

fn fault(edges: &mut Vec<Edge>, why: &'static str, number: u8, marked: &str) {
    let place = marked.find('^').unwrap_or(marked.len());
    let text = marked.replacen('^', "", 1);
    let case = format!("text\t{}", hex(text.as_bytes()));
    add(edges, why, case, &format!("refused {number} {place}"));
}

fn good(edges: &mut Vec<Edge>, why: &'static str, text: &str, result: &str) {
    add(
        edges,
        why,
        format!("text\t{}", hex(text.as_bytes())),
        result,
    );
}

pub fn edges(edges: &mut Vec<Edge>) {
    header_bytes(edges);
    numbers(edges);
    names_and_counts(edges);
    sets(edges);
    nesting(edges);
    symbols(edges);
}

fn header_bytes(edges: &mut Vec<Edge>) {
    for marked in [
        "^",
        "^Edition=1\n",
        "edition^",
        "edition^ =1\n",
        "edition=1^",
        "edition=1^ \n",
        "edition=1^\r\n",
        "edition=1\n^\nunknowns=0\n",
        "edition=1\nunknowns=0^,",
        "edition=1\nunknowns=0\narities=0^;1\n",
        "edition=1\nunknowns=0\narities=0^",
        "edition=1\nunknowns=0\narities=\nequations=0^",
        "edition=1\nunknowns=0\narities=\nequations=0\n^left={}\n",
        "edition=1\nunknowns=0\narities=\nequations=0\n^\n",
        "edition=1\nunknowns=0\narities=\nequations=1\n^",
        "edition=1\nunknowns=0\narities=\nequations=1\n^right={}\n",
        "edition=1\nunknowns=0\narities=\nequations=1\nleft={}\n^left={}\n",
        "edition=1\nunknowns=0\narities=\nequations=1\nleft={}\nright={}^",
        "edition=1\nunknowns=0\narities=\nequations=1\nleft={}\nright={}\n^left={}\n",
    ] {
        fault(edges, "a byte that the text form has not here", 1, marked);
    }
    let none = "edition=1\nunknowns=0\narities=\nequations=0\n";
    good(edges, "nothing at all is asked", none, "ok 0||0|");
}

fn numbers(edges: &mut Vec<Edge>) {
    for marked in [
        "edition=^",
        "edition=^x\n",
        "edition=^\n",
        "edition=^01\n",
        "edition=1\nunknowns=^",
        "edition=1\nunknowns=^\n",
        "edition=1\nunknowns=^-1\n",
        "edition=1\nunknowns=^00\n",
        "edition=1\nunknowns=^0000257\n",
        "edition=1\nunknowns=0\narities=^",
        "edition=1\nunknowns=0\narities=^,0\n",
        "edition=1\nunknowns=0\narities=0,^\n",
        "edition=1\nunknowns=0\narities=0,^",
        "edition=1\nunknowns=0\narities=0,^09\n",
        "edition=1\nunknowns=0\narities=\nequations=^\n",
    ] {
        fault(edges, "number missing or with a leading zero", 2, marked);
    }
    for marked in [
        "edition=^0\n",
        "edition=^2\n",
        "edition=^10\n",
        "edition=^100000",
        "edition=1\nunknowns=^257\n",
        "edition=1\nunknowns=^99999\n",
        "edition=1\nunknowns=^100000\n",
        "edition=1\nunknowns=^18446744073709551616\n",
        "edition=1\nunknowns=^257",
        "edition=1\nunknowns=0\narities=^9\n",
        "edition=1\nunknowns=0\narities=0,^10;",
        "edition=1\nunknowns=0\narities=\nequations=^65\n",
    ] {
        fault(edges, "number above its limit", 3, marked);
    }
    let full = vec!["0"; 256].join(",");
    for after in ["0\n", "\n", "00\n", "9\n", "x", ""] {
        let marked = format!("edition=1\nunknowns=0\narities={full},^{after}");
        fault(
            edges,
            "the 257th arity, before anything is said of it",
            3,
            &marked,
        );
    }
    let text =
        format!("edition=1\nunknowns=256\narities={full}\nequations=1\nleft=x255\nright=f255\n");
    let result = format!("ok 256|{full}|1|1255,2255");
    good(edges, "256 unknowns and 256 functors", &text, &result);
    let equations = "left={}\nright={}\n".repeat(64);
    let text = format!("edition=1\nunknowns=0\narities=8\nequations=64\n{equations}");
    let result = format!("ok 0|8|64|{}", vec!["0"; 128].join(","));
    good(edges, "64 equations and arity 8", &text, &result);
    for (number, marked) in [
        (2, "x^\n"),
        (2, "x^"),
        (2, "f^"),
        (2, "f^(x0)"),
        (2, "{x^}"),
        (2, "x^00\n"),
        (2, "x^01\n"),
        (2, "f^0000000\n"),
        (3, "x^100000\n"),
        (3, "f^999999999999999999999\n"),
        (4, "^x2\n"),
        (4, "^x256\n"),
        (4, "^x64536\n"),
        (4, "^x99999\n"),
        (4, "{x1,^x2}\n"),
        (4, "^f3\n"),
        (4, "^f3(x0)\n"),
        (4, "^f63536\n"),
        (4, "^f99999"),
    ] {
        fault(
            edges,
            "a name's number",
            number,
            &format!("{HEADER}left={marked}"),
        );
    }
}

fn names_and_counts(edges: &mut Vec<Edge>) {
    for (number, marked) in [
        (5, "f0^(x0)\n"),
        (5, "f0^("),
        (5, "f0^()\n"),
        (5, "f1^\n"),
        (5, "f1^"),
        (5, "f1^{}\n"),
        (5, "{f1^}\n"),
        (5, "{f1^,x0}\n"),
        (5, "f1^;"),
        (5, "f1(x0^,x1)\n"),
        (5, "f2(x0^)\n"),
        (5, "f2(x0,x1^,x0)\n"),
        (5, "f2(f1(x0)^)\n"),
        (5, "f2(f1^,x0)\n"),
        (1, "f1(^)\n"),
        (1, "f1(^,"),
        (1, "f1(^"),
        (1, "f1(x0^"),
        (1, "f1(x0^}\n"),
        (1, "f1(x0^|x1)\n"),
        (1, "f2(x0^;x1)\n"),
        (1, "f2(x0,^)\n"),
        (1, "f0^{}\n"),
        (1, "x0^(x1)\n"),
        (1, "x0^x1\n"),
        (1, "^X0\n"),
        (1, "^\n"),
        (1, "^"),
        (1, "^}"),
        (1, "^(x0)\n"),
        (1, "^0\n"),
    ] {
        let why = "arguments: 5 at a bracket or comma, 1 where a term is due";
        fault(edges, why, number, &format!("{HEADER}left={marked}"));
    }
}

fn sets(edges: &mut Vec<Edge>) {
    for marked in [
        "{^",
        "{^,x0}\n",
        "{^|x0}\n",
        "{^ }\n",
        "{{}^",
        "{x0^",
        "{x0^)\n",
        "{x0,^}\n",
        "{x0,^|x1}\n",
        "{x0|^}\n",
        "{x0|^{}}\n",
        "{x0|^{x1}}\n",
        "{x0|^",
        "{x0|^|x1}\n",
        "{x0|x1^,x0}\n",
        "{x0|x1^",
        "{x0|x1^|x1}\n",
        "{x0|x1}^}\n",
        "{}^}\n",
        "{}^{}\n",
    ] {
        let why = "a byte that begins no term, or that a set has not here";
        fault(edges, why, 1, &format!("{HEADER}left={marked}"));
    }
    let text = format!("{HEADER}left={{x0,{{}},f0|f2(x1,{{x0|f1(x1)}})}}\nright={{{{}}}}\n");
    let result = "ok 2|0,1,2|1|1,1000,1,0,1,2000,2002,1001,1,1000,2001,1001,1,0,0";
    good(edges, "tails may be functors with arguments", &text, result);
}

/// 200 open brackets are allowed, and `{}` inside them.
fn nesting(edges: &mut Vec<Edge>) {
    let open = "{".repeat(200);
    let close = "}".repeat(200);
    let (opened, closed) = ("f1(".repeat(200), ")".repeat(200));
    for (number, marked) in [
        (6, format!("{open}^{{x0}}{close}\n")),
        (6, format!("{open}^{{")),
        (6, format!("{open}^{{{{}}}}{close}\n")),
        (6, format!("{open}^{{;")),
        (6, format!("{open}f1^(x0){close}\n")),
        (6, format!("{open}f1^(")),
        (5, format!("{open}f1^{close}\n")),
        (5, format!("{open}f0^(x0){close}\n")),
        (4, format!("{open}^f3(x0){close}\n")),
        (6, format!("{opened}f1^(x0){closed}\n")),
        (6, format!("{opened}^{{x0}}{closed}\n")),
        (6, format!("{}{{x0|f1^(x0)}}{}\n", &open[1..], &close[1..])),
        (1, format!("{}{{x0|^{{", &open[1..])),
        (1, format!("{open}x0{}^\n", &close[1..])),
        (1, format!("{open}{{}}{close}^}}")),
    ] {
        let why = "the 201st open bracket";
        fault(edges, why, number, &format!("{HEADER}left={marked}"));
    }
    let text = format!("{HEADER}left={open}{{}}{close}\nright={opened}x0{closed}\n");
    let result = format!(
        "ok 2|0,1,2|1|{},0,{},{},1000",
        vec!["1"; 200].join(","),
        vec!["0"; 200].join(","),
        vec!["2001"; 200].join(",")
    );
    good(edges, "nesting 200 on both sides", &text, &result);
}

/// The 4,097th symbol. A member `{}` brings two symbols: its adding at its first byte, the empty set at its `}`.
fn symbols(edges: &mut Vec<Edge>) {
    // 1 + 2 * 2047 = 4,095 symbols, or one more where a whole set is on the left.
    let odd = format!("{HEADER}left=x0\nright={{{}{{}}", "{},".repeat(2046));
    let even = format!("{HEADER}left={{}}\nright=f1({{{}{{}}", "{},".repeat(2046));
    for (start, number, marked) in [
        (&odd, 3, ",^x0}\n"),
        (&odd, 3, ",{^}}\n"),
        (&odd, 1, ",{^;"),
        (&odd, 3, ",{^x0"),
        (&even, 3, "^})\n"),
        (&even, 3, ",^x"),
        (&even, 1, ",^}"),
        (&even, 3, "|^f9"),
        (&even, 1, "|^{"),
    ] {
        fault(
            edges,
            "the 4,097th symbol",
            number,
            &format!("{start}{marked}"),
        );
    }
    good(
        edges,
        "4,096 symbols",
        &format!("{odd}}}\n"),
        &format!("ok 2|0,1,2|1|1000,{},0", vec!["1,0"; 2047].join(",")),
    );
    let deep = format!("{HEADER}left=x0\nright={}", "{".repeat(200));
    let members = vec!["{}"; 1948].join(",");
    let why = "a member that is the 4,097th symbol is 3 before its own bracket is 6";
    fault(edges, why, 3, &format!("{deep}{members},^{{x0"));
    let members = vec!["{}"; 1947].join(",");
    fault(edges, why, 6, &format!("{deep}{members},^{{x0"));
}
