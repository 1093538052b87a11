//! Every length from 2 to 80 driven to NO ROOM: identifiers are inserted until there is none
//! several times over, some are deleted, the table is compacted, and it is filled again.

use super::histories::{Alphabet, History};
use super::Writer;
use crate::text::CHARACTERS;
use crate::NO_ROOM;

const ALPHABETS: [Alphabet; 4] = [(b"ab", 8), (b"abcx9-", 4), (b"a-", 32), (CHARACTERS, 6)];

pub fn write(w: &mut Writer) {
    let step = w.many(1, 11);
    for length in (2..=80).step_by(step) {
        for alphabet in ALPHABETS {
            w.title(format!("full {length} {}", alphabet.1));
            go_on(&mut History::new(w, 1, length, alphabet));
        }
    }
}

fn go_on(history: &mut History) {
    fill(history, 6);
    for n in [0, 1, 65_535] {
        delete_half(history);
        history.w.compact(n);
        fill(history, 4);
    }
    history.w.list_all();
    history.w.audit();
}

/// Inserts until NO ROOM has been answered so many times; live identifiers are met on the way.
fn fill(history: &mut History, mut times: usize) {
    while times > 0 {
        times -= usize::from(history.insert(5) == NO_ROOM);
    }
}

fn delete_half(history: &mut History) {
    for key in std::mem::take(&mut history.live) {
        if history.random.chance(50) {
            history.w.delete(&key);
        } else {
            history.live.push(key);
        }
    }
}
