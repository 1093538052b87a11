//! What the sets of cases promise, read from the texts themselves.

use second::cases::{written, SETS};
use second::*;
use std::collections::BTreeSet;
use std::process::Command;

const DECISIONS: &str = include_str!("../../../../docs/DECISIONS.md");

fn small(name: &str) -> cases::Writer {
    written(name, true).unwrap()
}

/// The first two words of each line.
fn words(text: &str) -> impl Iterator<Item = (&str, &str)> {
    text.lines().map(|line| {
        let mut words = line.split(' ');
        (words.next().unwrap_or(""), words.next().unwrap_or(""))
    })
}

#[test]
fn histories_have_200_000_commands() {
    let histories = written("histories", false).unwrap();
    let command = |(name, _): &(&str, &str)| ["insert", "delete", "find", "compact"].contains(name);
    assert_eq!(words(&histories.cases).filter(command).count(), 200_000);
    assert_eq!(histories.commands, 200_000);
}

#[test]
fn every_length_from_2_to_80_meets_no_room() {
    let full = written("full", false).unwrap();
    let (mut length, mut met) = ("", BTreeSet::new());
    for line in full.expected.lines() {
        if let Some(title) = line.strip_prefix("title full ") {
            length = title.split(' ').next().unwrap();
        }
        if line == format!("insert {NO_ROOM} 0 same") {
            met.insert(length.parse::<usize>().unwrap());
        }
    }
    assert_eq!(met, (2..=80).collect());
}

#[test]
fn every_reading_has_its_title() {
    let (_, table) = DECISIONS.split_once("## Readings taken").unwrap();
    let (table, _) = table.split_once("The readings of requests in 02").unwrap();
    let row = |line: &str| line.strip_prefix("| ")?.split(' ').next().map(str::to_owned);
    let readings: Vec<String> = table.lines().filter_map(row).filter(|cell| cell != "|").collect();
    assert!(readings.len() >= 30, "{readings:?}");
    let set = written("readings", false).unwrap();
    let titles: Vec<_> = words(&set.cases).filter(|(name, _)| *name == "title").collect();
    assert_eq!(titles.iter().map(|(_, number)| *number).collect::<Vec<_>>(), readings);
}

#[test]
fn every_answer_number_of_a_call_occurs() {
    let mut met = BTreeSet::new();
    for (name, _) in SETS.iter().filter(|(name, _)| *name != "every") {
        let answers = small(name).expected;
        met.extend(words(&answers).filter(|(name, _)| is_call(name)).map(|(_, n)| n.to_owned()));
    }
    assert_eq!(met, (DONE..=NO_SPACE).map(|number| number.to_string()).collect());
}

fn is_call(name: &str) -> bool {
    ["fresh", "find", "insert", "delete", "compact", "audit", "list", "run"].contains(&name)
}

#[test]
fn small_sets_have_a_few_thousand_calls() {
    for (name, _) in SETS.iter().filter(|(name, _)| *name != "every") {
        let calls = words(&small(name).cases).filter(|(name, _)| is_call(name)).count();
        assert!((20..9_000).contains(&calls), "{name} has {calls}");
    }
}

/// The one sound table with an identifier that the lengths and values of this set allow.
#[test]
fn among_every_pair_there_is_a_table_that_holds_a() {
    let every = written("every", false).unwrap();
    let line = every.expected.lines().find(|line| line.starts_with("0 0;0 2;")).unwrap();
    assert!(line.contains("0 13 016100000002\\0a.;"), "{line}");
    assert_eq!(every.expected.lines().count(), 3 + 11usize.pow(4) + 7usize.pow(6) + 6usize.pow(8));
}

#[test]
fn the_program_prints_the_names_or_says_how_to_ask() {
    let print = |arguments: &[&str]| {
        Command::new(env!("CARGO_BIN_EXE_cases")).args(arguments).output().unwrap()
    };
    let names: String = SETS.iter().map(|(name, _)| format!("{name}\n")).collect();
    assert_eq!(String::from_utf8(print(&[]).stdout).unwrap(), names);
    for wrong in [&["figures"][..], &["other", "."], &["figures", ".", "many"]] {
        assert_eq!(print(wrong).status.code(), Some(2));
    }
}
