//! Document 01's paragraph "Also run", each part of it.

use super::Writer;
use crate::arrays::P3;

pub fn write(w: &mut Writer) {
    for row in [1_000_000, 0, 1_000_001] {
        w.title(format!("row {row}"));
        w.start(9);
        w.insert_and_ask("a", row);
    }
    for characters in [32, 33] {
        w.title(format!("an identifier of {characters} characters"));
        w.start(80);
        w.insert_and_ask(&"z".repeat(characters), 5);
    }
    for length in [65_536, 1, 65_537] {
        w.title(format!("length {length}"));
        w.start(length);
        w.insert_and_ask("a-9", 5);
        w.insert_and_ask("a", 1_000_000);
    }
    w.title("insert a into P3");
    w.set(P3);
    w.insert("a", 3);
}
