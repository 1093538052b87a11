//! Runs: the sheets of the generator and odd ones, in several calls one after another, on tables
//! of several lengths.

use super::Writer;
use crate::sheets::{line, odd_lines, sheet, Random, KINDS};

/// Document 01's printed sheet.
const PRINTED: &str = "0102616200000007\n01016100000009\n0302616200000000\n\
                       0202616200000000\n0302616200000000\n040000000005\n";

pub fn write(w: &mut Writer) {
    printed(w);
    odd(w);
    every_byte(w);
    for length in [2, 4, 9, 20, 60, 300, 1_000, 4_096] {
        for (kind, _) in KINDS {
            generated(w, length, kind);
        }
    }
}

fn printed(w: &mut Writer) {
    w.title("document 01's printed sheet");
    for sheet in [PRINTED, PRINTED.trim_end()] {
        w.start(4_096);
        w.run_all(sheet, 0);
    }
}

/// A sheet of the generator, in parts of 1 to 60 lines, and the whole on what they have left.
fn generated(w: &mut Writer, length: usize, kind: &str) {
    let mut random = Random::new(length as u64);
    let count = w.many(600, 30);
    for seed in [1, 2] {
        let whole = sheet(seed + length as u64, count, kind).unwrap_or_default();
        w.title(format!("{count} lines, {kind}, length {length}, seed {seed}"));
        w.start(length);
        let mut lines: Vec<&[u8]> = whole.split_inclusive(|&byte| byte == b'\n').collect();
        while !lines.is_empty() {
            let part = 1 + random.below(60);
            let part = lines.drain(..part.min(lines.len())).collect::<Vec<_>>().concat();
            w.run_all(part, random.below(13));
        }
        w.run_all(&whole, 1);
        w.list_all();
    }
}

fn odd(w: &mut Writer) {
    for length in [3, 9, 200] {
        w.title(format!("odd sheets, length {length}"));
        w.start(length);
        w.run_all(odd_lines(), 5);
        w.run_all(b"\n".repeat(300), 0);
        w.run_all(b"0".repeat(5_000), 0);
        w.run_all([0; 40], 0);
        w.run_all("", 0);
        w.run_all("\r\n", 4);
    }
}

/// Every byte at every place of a line, a sheet for each place; and the line cut short.
fn every_byte(w: &mut Writer) {
    let good = line(1, b"k", 0xa5);
    let cut: Vec<&[u8]> = (0..=good.len()).map(|length| &good[..length]).collect();
    w.title("a line cut short");
    w.start(60);
    w.run_all(cut.join(&b'\n'), 3);
    for place in 0..good.len() {
        w.title(format!("every byte at place {place} of a line"));
        w.start(60);
        let lines = (0..=255).map(|byte| {
            let mut line = good.clone();
            line[place] = byte;
            line
        });
        w.run_all(lines.collect::<Vec<_>>().join(&b'\n'), 2);
    }
}
