//! Writes calls, as tests/calls/calls.c reads them, and beside them what it has to print. That
//! program's own header says what each line means.

use super::printed::*;
use crate::arrays::Arrays;
use crate::text::lines;
use crate::*;
use std::fmt::Write;

/// What arrays hold before fresh: nothing that a table has.
const OTHER: i32 = -77;

/// The two texts, and the two arrays as the calls have left them.
#[derive(Default)]
pub struct Writer {
    pub cases: String,
    pub expected: String,
    base: Vec<i32>,
    check: Vec<i32>,
    /// How many commands there are so far: insert, delete, find and compact.
    pub commands: usize,
    kept: Arrays,
    /// Whether a small set is asked for: each call counts, for a memory checker is slow.
    few: bool,
}

impl Writer {
    pub fn new(few: bool) -> Writer {
        Writer { few, ..Writer::default() }
    }

    /// How many of something a set has.
    pub fn many(&self, all: usize, few: usize) -> usize {
        if self.few {
            few
        } else {
            all
        }
    }

    pub fn title(&mut self, title: impl AsRef<str>) {
        let line = format!("title {}\n", title.as_ref());
        self.cases += &line;
        self.expected += &line;
    }

    pub fn set(&mut self, (base, check): (impl Into<Vec<i32>>, impl Into<Vec<i32>>)) {
        (self.base, self.check) = (base.into(), check.into());
        put_arrays(&mut self.cases, &self.base, &self.check);
    }

    pub fn fill(&mut self, length: usize, base: i32, check: i32) {
        self.ask(&format!("fill {length} {base} {check}"));
        (self.base, self.check) = (vec![base; length], vec![check; length]);
    }

    pub fn keep(&mut self) {
        self.ask("keep");
        self.kept = self.arrays();
    }

    pub fn back(&mut self) {
        self.ask("back");
        (self.base, self.check) = self.kept.clone();
    }

    fn arrays(&self) -> Arrays {
        (self.base.clone(), self.check.clone())
    }

    pub fn fresh(&mut self) -> Answer {
        self.ask("fresh");
        self.edit("fresh", fresh)
    }

    pub fn find(&mut self, key: impl AsRef<[u8]>) -> Answer {
        let key = key.as_ref();
        self.command(&format!("find {}", hexadecimal(key)));
        let answer = find(&self.base, &self.check, key);
        self.read("find", answer)
    }

    pub fn insert(&mut self, key: impl AsRef<[u8]>, row: u32) -> Answer {
        let key = key.as_ref();
        self.command(&format!("insert {} {row}", hexadecimal(key)));
        self.edit("insert", |base, check| insert(base, check, key, row))
    }

    pub fn delete(&mut self, key: impl AsRef<[u8]>) -> Answer {
        let key = key.as_ref();
        self.command(&format!("delete {}", hexadecimal(key)));
        self.edit("delete", |base, check| delete(base, check, key))
    }

    /// The second program takes 32 bits. What is over them is out of range, as their greatest is.
    pub fn compact(&mut self, n: u64) -> Answer {
        self.command(&format!("compact {n}"));
        let n = u32::try_from(n).unwrap_or(u32::MAX);
        self.edit("compact", |base, check| compact(base, check, n))
    }

    pub fn audit(&mut self) -> Answer {
        self.ask("audit");
        let answer = audit(&self.base, &self.check);
        self.read("audit", answer)
    }

    pub fn list(&mut self, room: usize) -> Answer {
        self.ask(&format!("list {room}"));
        let mut out = vec![b'.'; room];
        let answer = list(&self.base, &self.check, &mut out);
        self.read("list", answer);
        self.put_bytes(&out);
        answer
    }

    pub fn run(&mut self, room: usize, sheet: impl AsRef<[u8]>) -> Answer {
        let sheet = sheet.as_ref();
        self.ask(&format!("run {room} {}", hexadecimal(sheet)));
        let mut out = vec![b'.'; room];
        let answer = self.edit("run", |base, check| run(base, check, sheet, &mut out));
        self.put_bytes(&out);
        answer
    }

    /// The battery on every pair of arrays of this length over these values, a line for each.
    pub fn every(&mut self, length: usize, values: &[i32]) {
        self.cases += &format!("every {length}");
        put_elements(&mut self.cases, values);
        self.cases.push('\n');
        let places = 2 * length as u32;
        for number in 0..values.len().pow(places) {
            let digit = |place| values[number / values.len().pow(place) % values.len()];
            let both: Vec<i32> = (0..places).rev().map(digit).collect();
            let (base, check) = both.split_at(length);
            put_battery(&mut self.expected, base, check);
        }
    }

    fn ask(&mut self, line: &str) {
        self.cases += line;
        self.cases.push('\n');
    }

    fn command(&mut self, line: &str) {
        self.commands += 1;
        self.ask(line);
    }

    fn read(&mut self, name: &str, answer: Answer) -> Answer {
        let _ = writeln!(self.expected, "{name} {} {}", answer.number, answer.value);
        answer
    }

    fn edit(&mut self, name: &str, call: impl FnOnce(&mut [i32], &mut [i32]) -> Answer) -> Answer {
        let before = self.arrays();
        let answer = call(&mut self.base, &mut self.check);
        let _ = write!(self.expected, "{name} {} {}", answer.number, answer.value);
        if self.arrays() == before {
            self.expected += " same\n";
        } else {
            self.expected.push('\n');
            put_arrays(&mut self.expected, &self.base, &self.check);
        }
        answer
    }

    fn put_bytes(&mut self, bytes: &[u8]) {
        put_bytes(&mut self.expected, bytes);
        self.expected.push('\n');
    }
}

/// Ways to write several calls at once.
impl Writer {
    /// A fresh table of this length.
    pub fn start(&mut self, length: usize) {
        self.fill(length, OTHER, OTHER);
        self.fresh();
    }

    /// A fresh table with these identifiers inserted, their rows 1, 2, 3 and upward.
    pub fn start_with(&mut self, length: usize, keys: &[&str]) {
        self.start(length);
        for (row, key) in (1..).zip(keys) {
            self.insert(key, row);
        }
    }

    /// Commands written as words: `+key` inserts, `-key` deletes, `=n` compacts. The rows inserted
    /// are 7, 9, 11 and so on, so that `+ab +a` makes the figures. Behind each command what the
    /// key's find and the audit say.
    pub fn play(&mut self, script: &str) {
        for (row, word) in (7..).step_by(2).zip(script.split(' ')) {
            match word.split_at(1) {
                ("+", key) => self.insert_and_ask(key, row),
                ("-", key) => self.delete_and_ask(key),
                (_, n) => self.compact_and_ask(n.parse().unwrap_or_default()),
            }
        }
    }

    pub fn insert_and_ask(&mut self, key: &str, row: u32) {
        self.insert(key, row);
        self.find(key);
        self.audit();
    }

    pub fn delete_and_ask(&mut self, key: &str) {
        self.delete(key);
        self.find(key);
        self.audit();
    }

    pub fn compact_and_ask(&mut self, n: u64) {
        self.compact(n);
        self.audit();
    }

    pub fn find_each(&mut self, keys: &[&str]) {
        for key in keys {
            self.find(key);
        }
    }

    pub fn list_each(&mut self, rooms: &[usize]) {
        for &room in rooms {
            self.list(room);
        }
    }

    /// The listing, into as many bytes as it has and a few more.
    pub fn list_all(&mut self) {
        let listing = self.listing_length();
        self.list(listing + 3);
    }

    /// How many bytes the table's listing has.
    pub fn listing_length(&self) -> usize {
        let mut out = vec![0; 75 * self.base.len()];
        list(&self.base, &self.check, &mut out).value as usize
    }

    /// A sheet, with room for just its answers and so many bytes more.
    pub fn run_all(&mut self, sheet: impl AsRef<[u8]>, more: usize) -> Answer {
        let room = text::ANSWER_LENGTH * lines(sheet.as_ref()).len() + more;
        self.run(room, sheet)
    }

    /// Every call on these arrays, the edits each from the arrays as they stand.
    pub fn every_call(&mut self, keys: &[&str]) {
        let sheet = [sheets::line(1, b"ac", 5), sheets::line(2, b"a", 0), b"x".to_vec()];
        self.audit();
        self.keep();
        for key in keys {
            self.find(key);
            self.insert(key, 5);
            self.back();
            self.delete(key);
            self.back();
        }
        for n in [0, 1, 5] {
            self.compact(n);
            self.back();
        }
        self.list(40);
        self.list_all();
        self.run(34, sheet.join(&b'\n'));
        self.back();
        self.fresh();
    }
}
