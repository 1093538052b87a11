//! The figures P1 to P10 of document 01, step by step and as given tables.

use super::Writer;
use crate::arrays::{FIGURES, P3, P4};

pub fn write(w: &mut Writer) {
    steps(w);
    short(w);
    given(w);
}

/// P1 to P7; P4 and P5 both start from P3.
fn steps(w: &mut Writer) {
    w.title("P1, P2, P3");
    w.start(9);
    w.insert("ab", 7);
    w.insert("a", 9);
    w.keep();
    w.title("P7 with a byte too few, all full, and with bytes to spare");
    w.list_each(&[27, 28, 30]);
    w.title("P4 from P3");
    w.compact(5);
    w.back();
    w.title("P5 and P6 from P3");
    w.delete("ab");
    w.delete("a");
    w.title("P4, P5 and P6 with find and audit after each step");
    for script in ["+ab +a =5", "+ab +a -ab -a"] {
        w.start(9);
        w.play(script);
    }
    w.title("P5 by one insertion");
    w.start(9);
    w.insert_and_ask("a", 9);
}

/// P8 and P9: one identifier in a short table.
fn short(w: &mut Writer) {
    for length in 3..6 {
        for key in ["a", "b", "ab"] {
            w.title(format!("P8 and P9, length {length}, insert {key}"));
            w.start(length);
            w.insert_and_ask(key, 1);
        }
    }
}

fn given(w: &mut Writer) {
    for (number, figure) in (1..).zip(FIGURES) {
        w.title(format!("P{number} as a given table"));
        w.set(figure);
        w.audit();
        w.find_each(&["a", "ab", "c-0", "A"]);
        w.list_each(&[0, 28, 64]);
    }
    w.title("P3, insertions that are refused and one that is done");
    w.set(P3);
    for (key, row) in [("a", 5), ("a", 0), ("a", 1_000_001), ("b", 0), ("b", 1_000_001)] {
        w.insert_and_ask(key, row);
    }
    for (key, row) in [("aB", 5), ("", 5), ("_", 0), ("b", 1_000_000)] {
        w.insert_and_ask(key, row);
    }
    w.title("P4, insertions");
    w.set(P4);
    for (key, row) in [("ab", 5), ("a", 5), ("b", 3)] {
        w.insert_and_ask(key, row);
    }
    w.title("P10: P3 with check[4] = -8");
    let (base, mut check) = P3;
    check[4] = -8;
    w.set((base, check));
    w.every_call(&["a", "ab", "b"]);
}
