//! The cases that independent implementations agreed on before.

use oracle::cases::{result, Oracle};

/// Panics with the first line whose case has another result; gives the number of lines.
fn hold_against(lines: &'static str) -> usize {
    oracle::on_deep_stack(move || {
        for (index, line) in lines.lines().enumerate() {
            let (case, wanted) = line.rsplit_once('\t').expect("a case and its result");
            let given = result(&mut Oracle, case).expect("a case");
            assert_eq!(given, wanted, "line {}: {case}", index + 1);
        }
        lines.lines().count()
    })
}

macro_rules! vectors {
    ($($name:ident: $count:literal)*) => {$(
        #[test]
        fn $name() {
            let lines = include_str!(concat!("vectors/", stringify!($name), ".tsv"));
            assert_eq!(hold_against(lines), $count);
        }
    )*};
}

vectors! { equal: 30 run: 175 text: 135 values: 40 writel: 50 writeq: 40 }
