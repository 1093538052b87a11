//! The sheet that document 01 prints and its answers, through the call and through the program.

use crate::common::*;
use second::sheets::{sheet, KINDS};
use std::io::Write;
use std::process::{Command, Stdio};

pub const SHEET: &str = "0102616200000007\n01016100000009\n0302616200000000\n\
                     0202616200000000\n0302616200000000\n040000000005\n";
const ANSWERS: &str = "0000000000\n0000000001\n0000000007\n\
                       0000000007\n0600000000\n0000000000\n";

/// What the program prints for a sheet on its standard input.
fn printed(sheet: &[u8]) -> String {
    let mut program = Command::new(env!("CARGO_BIN_EXE_second"))
        .stdin(Stdio::piped())
        .stdout(Stdio::piped())
        .spawn()
        .unwrap();
    program.stdin.take().unwrap().write_all(sheet).unwrap();
    let output = program.wait_with_output().unwrap();
    assert!(output.status.success());
    String::from_utf8(output.stdout).unwrap()
}

#[test]
fn the_run_gives_the_printed_answers() {
    assert_eq!(Pair::fresh(4_096).answers(SHEET), ANSWERS);
    assert_eq!(Pair::fresh(4_096).answers(SHEET.trim_end()), ANSWERS);
}

#[test]
fn the_program_prints_the_printed_answers() {
    assert_eq!(printed(SHEET.as_bytes()), ANSWERS);
    assert_eq!(printed(SHEET.trim_end().as_bytes()), ANSWERS);
    assert_eq!(printed(b""), "");
    assert_eq!(printed(&b"0".repeat(523)), "0900000000\n");
}

#[test]
fn the_program_prints_what_a_run_over_4096_elements_answers() {
    for (kind, _) in KINDS {
        let sheet = sheet(11, 300, kind).unwrap();
        assert_eq!(printed(&sheet), Pair::fresh(4_096).answers(&sheet));
    }
}
