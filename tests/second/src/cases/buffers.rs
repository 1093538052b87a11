//! Buffers of every length up to a few bytes more than needed, for listings and for answers: what
//! does not fit is refused whole, and bytes behind what is written stay.

use super::Writer;
use crate::arrays::{unsound, FIGURES, P3};
use crate::sheets::line;
use crate::text::{lines, ANSWER_LENGTH};

pub fn write(w: &mut Writer) {
    listings(w);
    answers(w);
}

fn listings(w: &mut Writer) {
    for (number, figure) in (1..).zip(FIGURES) {
        w.title(format!("the listing of P{number}"));
        w.set(figure);
        all_rooms(w);
    }
    w.title("a listing of 32 characters, digits and hyphens");
    w.start_with(200, &["zzzzzzzzzzzzzzzzzzzzzzzzzzzzzzzz", "-", "0", "a-0", "a", "-a"]);
    all_rooms(w);
    for arrays in unsound() {
        w.title("an unsound table has no listing");
        w.set(arrays);
        w.list_each(&[0, 1, 13, 14, 15]);
    }
}

fn all_rooms(w: &mut Writer) {
    let rooms: Vec<usize> = (0..=w.listing_length() + 2).collect();
    w.list_each(&rooms);
}

/// Sheets of 0 to 4 lines, good, blank and bad ones at every place, on P3.
fn answers(w: &mut Writer) {
    let pool = [
        line(1, b"b", 1_000_000),
        vec![],
        line(2, b"ab", 0),
        b"x\0\xff".to_vec(),
        line(3, b"a", 0),
        line(4, b"", 5),
        line(1, b"a", 3),
    ];
    let first = w.many(pool.len(), 3);
    w.set(P3);
    w.keep();
    for (count, from) in (0..5).flat_map(|count| (0..first).map(move |from| (count, from))) {
        let chosen: Vec<_> = pool.iter().cycle().skip(from).take(count).cloned().collect();
        let sheet = chosen.join(&b'\n');
        w.title(format!("answers to {count} lines, from {from}"));
        all_answer_rooms(w, &sheet);
        all_answer_rooms(w, &[&sheet[..], b"\n"].concat());
    }
}

fn all_answer_rooms(w: &mut Writer, sheet: &[u8]) {
    for room in 0..=ANSWER_LENGTH * lines(sheet).len() + 3 {
        w.run(room, sheet);
        w.back();
    }
}
