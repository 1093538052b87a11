//! Real tables with each element in turn replaced by extreme values, and every call on each.

use super::Writer;
use crate::arrays::{built, empty, Arrays, P3};
use crate::{delete, insert};

const EXTREMES: [i32; 11] =
    [i32::MIN, i32::MIN + 1, -1_000_001, -1_000_000, -8, -1, 0, 1, 8, 9, i32::MAX];

pub fn write(w: &mut Writer) {
    for (name, arrays) in tables() {
        w.title(format!("{name}, sound"));
        w.set(arrays.clone());
        w.every_call(&KEYS);
        each_element(w, name, &arrays);
    }
}

/// Identifiers that the tables hold, and others.
const KEYS: [&str; 6] = ["a", "ab", "b", "c-0", "A", "zzzzzzzzzzzzzzzzzzzzzzzzzzzzzzzz"];

/// The values behind the extreme ones lie at the edge of this table.
fn each_element(w: &mut Writer, name: &str, (base, check): &Arrays) {
    let last = base.len() as i32 - 1;
    let values = [&EXTREMES[..], &[last, last + 1, -last - 1]].concat();
    let step = w.many(1, 9);
    for place in (0..2 * base.len()).step_by(step) {
        for &value in values.iter().skip(place % step).step_by(step) {
            let mut both = [&base[..], check].concat();
            both[place] = value;
            let (base, check) = both.split_at(base.len());
            w.title(format!("{name}, element {place} of both arrays is {value}"));
            w.set((base, check));
            w.every_call(&KEYS[..w.many(6, 2)]);
        }
    }
}

fn tables() -> [(&'static str, Arrays); 7] {
    let long = ["zzzzzzzzzzzzzzzzzzzzzzzzzzzzzzzz", "a"];
    let sixty = ["ab", "a", "b-9", "bac", "cab", "c", "zz", "z0", "ba", "abc", "b"];
    [
        ("P3", (P3.0.into(), P3.1.into())),
        ("a chain", made(20, &["a", "abe", "ac", "e"], &["abe"])),
        ("a full table", made(10, &["a", "ab", "b", "ba", "aa"], &[])),
        ("32 characters", made(72, &long, &[])),
        ("60 elements after deletions", made(60, &sixty, &["bac", "c", "zz", "b-9"])),
        ("trimmed", built(9, 3, &[(1, 1, 1), (2, 3, -5), (3, 1, 1)])),
        ("not trimmed", built(9, 8, &[(1, 1, 1), (2, 3, -5), (3, 1, 1)])),
    ]
}

/// A table with these identifiers inserted, as far as there is room, and some deleted again.
fn made(length: usize, keys: &[&str], deleted: &[&str]) -> Arrays {
    let (mut base, mut check) = empty(length);
    for (row, key) in (1..).zip(keys) {
        insert(&mut base, &mut check, key.as_bytes(), row);
    }
    for key in deleted {
        delete(&mut base, &mut check, key.as_bytes());
    }
    (base, check)
}
