//! The generator of sheets: what it promises, and that a plain map agrees with a run over its
//! sheets in a table of 4,096 elements.

use crate::common::*;
use crate::histories::listing;
use second::sheets::{sheet, KINDS};
use second::text::{lines, read_line};
use second::*;
use std::collections::{BTreeMap, BTreeSet};
use std::process::Command;

/// Operation (0 for a line that is none), answer number and value, line by line.
fn outcomes(sheet: &[u8], table: &mut Pair) -> Vec<(u32, u8, u32)> {
    let answers = table.answers(sheet);
    let pair = |(line, answer): (&&[u8], &str)| {
        let operation = read_line(line).map_or(0, |line| line.operation);
        let number = u8::from_str_radix(&answer[..2], 16).unwrap();
        (operation, number, u32::from_str_radix(&answer[2..], 16).unwrap())
    };
    let lines = lines(sheet);
    assert_eq!(lines.len(), answers.lines().count());
    lines.iter().zip(answers.lines()).map(pair).collect()
}

#[test]
fn the_same_seed_gives_the_same_sheet_of_so_many_lines() {
    for (kind, _) in KINDS {
        for seed in 0..6 {
            let made = sheet(seed, 200, kind).unwrap();
            assert_eq!(Some(&made), sheet(seed, 200, kind).as_ref());
            assert_ne!(Some(&made), sheet(seed + 6, 200, kind).as_ref());
            assert_eq!(lines(&made).len(), 200);
            assert_eq!(sheet(seed, 0, kind), Some(vec![]));
        }
    }
    assert_eq!(sheet(1, 1, "other"), None);
}

#[test]
fn the_program_prints_the_sheet_or_says_how_to_ask() {
    let print = |arguments: &str| {
        let mut program = Command::new(env!("CARGO_BIN_EXE_sheets"));
        program.args(arguments.split_whitespace()).output().unwrap()
    };
    assert_eq!(Some(print("9 50 churn").stdout), sheet(9, 50, "churn"));
    assert_eq!(Some(print("9 50").stdout), sheet(9, 50, "mixed"));
    for wrong in ["", "9", "9 x", "-1 50", "9 50 other", "9 50 full 1"] {
        let output = print(wrong);
        assert_eq!((output.status.code(), output.stdout.len()), (Some(2), 0));
    }
}

#[test]
fn the_kinds_cover_every_operation_and_every_refusal_of_a_line() {
    let mut met = BTreeSet::new();
    for (kind, _) in KINDS {
        let sheet = sheet(3, 1_500, kind).unwrap();
        let outcomes = outcomes(&sheet, &mut Pair::fresh(4_096));
        met.extend(outcomes.iter().map(|&(operation, number, _)| (operation, number)));
    }
    let expected = [
        (0, LINE),
        (1, DONE),
        (1, KEY),
        (1, NUMBER),
        (1, PRESENT),
        (1, NO_ROOM),
        (2, DONE),
        (2, KEY),
        (2, ABSENT),
        (3, DONE),
        (3, KEY),
        (3, ABSENT),
        (4, DONE),
        (4, NUMBER),
    ];
    assert_eq!(met, BTreeSet::from(expected));
}

#[test]
fn full_works_on_near_the_full_table() {
    let sheet = sheet(5, 2_000, "full").unwrap();
    let outcomes = outcomes(&sheet, &mut Pair::fresh(4_096));
    let first = outcomes.iter().position(|o| o.1 == NO_ROOM).unwrap();
    assert!(first < 300);
    let count = |wanted: fn(&(u32, u8, u32)) -> bool| {
        let after = outcomes[first..].iter();
        after.filter(|outcome| wanted(outcome)).count()
    };
    assert!(count(|o| o.1 == NO_ROOM) > 50);
    assert!(count(|o| o.0 == 1 && o.1 == DONE && o.2 > 0) > 50, "moving inserts");
    assert!(count(|o| o.0 == 2 && o.1 == DONE) > 100, "deletes");
    assert!(count(|o| o.0 == 4 && o.2 > 0) > 5, "moving compactions");
}

#[test]
fn a_plain_map_agrees_with_the_runs() {
    for (kind, _) in KINDS {
        let sheet = sheet(8, 1_000, kind).unwrap();
        let mut table = Pair::fresh(4_096);
        let mut map: BTreeMap<Vec<u8>, u32> = BTreeMap::new();
        let outcomes = outcomes(&sheet, &mut table);
        for (line, (operation, number, value)) in lines(&sheet).into_iter().zip(outcomes) {
            let Some(line) = read_line(line) else {
                assert_eq!((number, value), (LINE, 0));
                continue;
            };
            let live = map.get(&line.key).copied();
            match (operation, number) {
                (1, DONE) => assert_eq!(map.insert(line.key, line.number), None),
                (1, PRESENT) | (3, DONE) => assert_eq!(live, Some(value)),
                (2, DONE) => assert_eq!(map.remove(&line.key), Some(value)),
                (4, DONE) => assert!(value <= line.number),
                _ => assert!(live.is_none() || number == NUMBER),
            }
        }
        assert_eq!(table.audit(), done(0));
        assert_eq!(table.listing(), listing(&map));
    }
}
