//! `cost write KIND COUNT HITS MISSES` writes identifiers of a kind with their rows, a line each, and as many that are not among
//! them. `cost second|map|nothing ELEMENTS HITS MISSES OUT` makes the calls of the second program, of Rust's `HashMap` or of
//! nothing over them, as measure.c does for the others: the same loops between the same marks, the same lines printed, the same
//! files written. What nothing costs is the cost of the loops.

use second::command::{perform, Command};
use second::sheets::Random;
use second::table::Table;
use second::text::{self, CHARACTERS};
use std::collections::{HashMap, HashSet};
use std::fs;
use std::process::exit;

type Entry = (Vec<u8>, u32);

fn main() {
    let arguments: Vec<String> = std::env::args().skip(1).collect();
    let arguments: Vec<&str> = arguments.iter().map(String::as_str).collect();
    match arguments[..] {
        ["write", kind, count, hits, misses] => write(kind, count.parse().unwrap(), hits, misses),
        [name, elements, hits, misses, out] => {
            let mut contender = contender(name, elements.parse().unwrap());
            measure(&mut *contender, &read(hits), &read(misses), out);
        }
        _ => exit(2),
    }
}

// ---- identifiers

/// Writes two files of identifiers, all different. The first are given the rows from 1 on.
fn write(kind: &str, count: usize, hits: &str, misses: &str) {
    let mut random = Random::new(1);
    let mut seen = HashSet::new();
    let mut keys = Vec::new();
    // A kind that runs out of identifiers has fewer.
    for n in 0..20 * count {
        let key = identifier(kind, n, &mut random);
        if keys.len() < 2 * count && seen.insert(key.clone()) {
            keys.push(key);
        }
    }
    let lines: Vec<_> =
        keys.iter().enumerate().map(|(n, key)| format!("{key} {}\n", n % count + 1)).collect();
    let (first, rest) = lines.split_at(count.min(lines.len()));
    fs::write(hits, first.concat()).unwrap();
    fs::write(misses, rest.concat()).unwrap();
}

fn identifier(kind: &str, n: usize, random: &mut Random) -> String {
    match kind {
        "panel" => panel(random),
        "any" => {
            let length = random.below(9) + 4;
            word(random, CHARACTERS, length)
        }
        // In ascending order, at random, of 32 characters that begin alike, and at random over all letters.
        "ascending" => format!("nl-{n:06}"),
        "random" => format!("nl-{:06}", random.below(1_000_000)),
        "deep" => format!("abcdefghijklmnopqrstuvwxyz{n:06}"),
        "sparse" => word(random, b"abcdefghijklmnopqrstuvwxyz", 24),
        // For the stack: 32 times the last or the first character but for one, and at random over three characters.
        "late" => all_but_one('-', n),
        "early" => all_but_one('a', n),
        "three" => word(random, b"-9z", 32),
        _ => exit(2),
    }
}

/// Respondents of a survey in several countries: 4 to 12 characters, about 9 on average.
fn panel(random: &mut Random) -> String {
    let country = random.pick(&["nl", "de", "uk", "fr", "at", "be", "dk", "es", "it", "se"]);
    let wave = random.below(6) + 1;
    let number = random.below(2_000);
    let member = random.below(5) + 1;
    match random.below(20) {
        // Country and number, by far the most; households with a member's number; wave, country and number.
        0..=8 => format!("{country}-{number:06}"),
        9..=12 => format!("{country}-{:05}-{member}", 10_000 + number),
        13..=15 => format!("w{wave}-{country}{number:05}"),
        // Shorter ones.
        16 => format!("{country}{:02}", number % 100),
        17 => format!("{country}-{:03}", number % 1_000),
        18 => format!("{country}{number:05}"),
        // Longer ones.
        _ if number % 2 == 0 => format!("{country}-{number:06}-{member}"),
        _ => format!("{country}-{number:06}-w{wave}"),
    }
}

fn word(random: &mut Random, characters: &[u8], length: usize) -> String {
    String::from_utf8(random.word(characters, length)).unwrap()
}

/// 32 times a character, but for one place, the later places first; there another one.
fn all_but_one(character: char, n: usize) -> String {
    let (place, other) = (n / CHARACTERS.len(), CHARACTERS[n % CHARACTERS.len()]);
    let mut key = [character as u8; 32];
    if place < key.len() {
        key[31 - place] = other;
    }
    String::from_utf8(key.to_vec()).unwrap()
}

fn read(file: &str) -> Vec<Entry> {
    let text = fs::read_to_string(file).unwrap();
    let entry = |line: &str| {
        let (key, row) = line.split_once(' ').unwrap();
        (key.as_bytes().to_vec(), row.parse().unwrap())
    };
    text.lines().map(entry).collect()
}

// ---- contenders

trait Contender {
    /// The row, or 0.
    fn find(&self, key: &[u8]) -> u64;
    /// 0 if it is done.
    fn insert(&mut self, key: &[u8], row: u32) -> u64;
    /// The row of what is removed.
    fn delete(&mut self, key: &[u8]) -> u64;
    /// 0 if it is sound.
    fn audit(&self) -> u64 {
        0
    }
    fn list(&self) -> Vec<u8> {
        Vec::new()
    }
    /// The two arrays, if there are any.
    fn arrays(&self) -> [&[i32]; 2] {
        [&[], &[]]
    }
}

fn contender(name: &str, elements: usize) -> Box<dyn Contender> {
    match name {
        "second" => {
            let (mut base, mut check) = (vec![0; elements], vec![0; elements]);
            second::fresh(&mut base, &mut check);
            Box::new(Second { base, check })
        }
        "map" => Box::new(Map(HashMap::new())),
        "nothing" => Box::new(Nothing),
        _ => exit(2),
    }
}

/// The second program, without its audit.
struct Second {
    base: Vec<i32>,
    check: Vec<i32>,
}

impl Contender for Second {
    fn find(&self, key: &[u8]) -> u64 {
        second::find(&self.base, &self.check, key).value.into()
    }
    fn insert(&mut self, key: &[u8], row: u32) -> u64 {
        let done = Command::insert(key, row)
            .and_then(|command| perform(&mut self.base, &mut self.check, command));
        done.map_or_else(|refused| refused.number.into(), |_| 0)
    }
    fn delete(&mut self, key: &[u8]) -> u64 {
        let row = Command::delete(key)
            .and_then(|command| perform(&mut self.base, &mut self.check, command));
        row.unwrap_or(0).into()
    }
    fn audit(&self) -> u64 {
        second::audit(&self.base, &self.check).number.into()
    }
    fn list(&self) -> Vec<u8> {
        text::listing(&Table::read(&self.base, &self.check).entries())
    }
    fn arrays(&self) -> [&[i32]; 2] {
        [&self.base, &self.check]
    }
}

struct Map(HashMap<Box<[u8]>, u32>);

impl Contender for Map {
    fn find(&self, key: &[u8]) -> u64 {
        self.0.get(key).copied().unwrap_or(0).into()
    }
    fn insert(&mut self, key: &[u8], row: u32) -> u64 {
        self.0.insert(key.into(), row).is_some().into()
    }
    fn delete(&mut self, key: &[u8]) -> u64 {
        self.0.remove(key).unwrap_or(0).into()
    }
}

struct Nothing;

impl Contender for Nothing {
    fn find(&self, _: &[u8]) -> u64 {
        0
    }
    fn insert(&mut self, _: &[u8], _: u32) -> u64 {
        0
    }
    fn delete(&mut self, _: &[u8]) -> u64 {
        0
    }
}

// ---- what is counted

extern "C" {
    fn syscall(number: std::ffi::c_long, ...) -> std::ffi::c_long;
}

/// The system call that count.c counts at.
fn mark(row: i32) {
    unsafe { syscall(9999, row) };
}

/// The half that is deleted is taken from all over the file, in another order than the inserts'.
const STRIDE: usize = 4217;

// The rows of the table.
const FIND_HIT: i32 = 1;
const FIND_MISS: i32 = 2;
const INSERT: i32 = 3;
const DELETE: i32 = 4;
const AUDIT: i32 = 5;
const LIST: i32 = 6;

fn over(row: i32, entries: &[Entry], mut call: impl FnMut(&Entry) -> u64) {
    mark(row);
    let sum: u64 = entries.iter().map(|entry| call(entry)).sum();
    mark(row);
    println!("{row} {} {sum}", entries.len());
}

fn measure(contender: &mut dyn Contender, hits: &[Entry], misses: &[Entry], out: &str) {
    over(INSERT, hits, |(key, row)| contender.insert(key, *row));
    save(contender, out, 1);
    over(FIND_HIT, hits, |(key, _)| contender.find(key));
    over(FIND_MISS, misses, |(key, _)| contender.find(key));
    mark(AUDIT);
    let answer = contender.audit();
    mark(AUDIT);
    println!("{AUDIT} {} {answer}", contender.arrays()[0].first().unwrap_or(&0));
    mark(LIST);
    let listing = contender.list();
    mark(LIST);
    println!("{LIST} {} 0", listing.len());
    fs::write(format!("{out}.3"), listing).unwrap();
    let half = (0..hits.len() / 2).map(|i| hits[i * STRIDE % hits.len()].clone());
    over(DELETE, &half.collect::<Vec<_>>(), |(key, _)| contender.delete(key));
    save(contender, out, 2);
    fs::write(format!("{out}.4"), contender.list()).unwrap();
}

/// Base, then check, each number as 4 bytes.
fn save(contender: &dyn Contender, out: &str, number: usize) {
    let numbers = contender.arrays().concat();
    let bytes: Vec<u8> = numbers.iter().flat_map(|x| x.to_le_bytes()).collect();
    fs::write(format!("{out}.{number}"), bytes).unwrap();
}
