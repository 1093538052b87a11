//! The sheet on which the proved program `crates/run_sheet` is run as soon as it is proved, and
//! what it has to print, written by the second program. Both are stored beside that program.
//! After a change here `cargo test --offline -- --ignored` stores them anew.

use crate::common::Pair;
use crate::printed_sheet::SHEET;
use second::sheets::{line, odd_lines, sheet};
use second::*;
use std::collections::BTreeSet;
use std::fs;

const STORED_SHEET: &[u8] = include_bytes!("../../../../crates/run_sheet/stdin");
const STORED_ANSWERS: &str = include_str!("../../../../crates/run_sheet/stdout");

/// Document 01's sheet, some lines of every kind of the generator, odd lines before the last
/// kind, which leaves no room, and a find without its line feed. They share one table.
fn stored_sheet() -> Vec<u8> {
    let generated = |(kind, lines)| sheet(40, lines, kind).unwrap();
    let kinds = [("mixed", 60), ("churn", 60), ("refusals", 60), ("limits", 40)];
    [
        SHEET.as_bytes(),
        &kinds.map(generated).concat(),
        &odd_lines(),
        &generated(("full", 320)),
        &line(3, b"zz", 0),
    ]
    .concat()
}

fn answers() -> String {
    Pair::fresh(4_096).answers(stored_sheet())
}

#[test]
fn the_proved_program_is_run_on_this_sheet_and_prints_these_answers() {
    assert!(stored_sheet() == STORED_SHEET);
    assert!(answers() == STORED_ANSWERS, "{}", answers());
}

#[test]
fn the_sheet_meets_every_answer_of_a_line() {
    let met: BTreeSet<u8> = answers().lines().map(|answer| answer.as_bytes()[1] - b'0').collect();
    assert_eq!(met, BTreeSet::from([DONE, KEY, NUMBER, PRESENT, ABSENT, NO_ROOM, LINE]));
}

#[test]
#[ignore = "it writes the stored files"]
fn store() {
    fs::write("../../crates/run_sheet/stdin", stored_sheet()).unwrap();
    fs::write("../../crates/run_sheet/stdout", answers()).unwrap();
}
