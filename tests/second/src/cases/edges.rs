//! What lies at the edges of the rules: lengths, identifiers, rows and numbers of moves at the ends
//! of their ranges, refusals in their order, unsound tables, and tables whose listing is in order.

use super::Writer;
use crate::arrays::{built, ladder, unsound, P1, P3};
use crate::sheets::line;

pub fn write(w: &mut Writer) {
    fresh_lengths(w);
    refused_lengths(w);
    refused_tables(w);
    refusals(w);
    ladders(w);
    identifiers(w);
    bytes(w);
    numbers(w);
    listings(w);
    greatest_length(w);
    far(w);
}

/// Lengths at which fresh makes a table, and others.
fn fresh_lengths(w: &mut Writer) {
    for (n, m) in [(9, 9), (2, 2), (3, 3), (1, 1), (0, 0), (9, 8), (8, 9), (2, 3), (0, 2)] {
        w.title(format!("fresh {n} {m}"));
        w.set((vec![-77; n], vec![i32::MIN; m]));
        w.fresh();
        w.audit();
        w.play("+a -a =65535");
    }
}

/// The first elements of fresh tables and of P3, of lengths that no table has: SIZE comes first.
fn refused_lengths(w: &mut Writer) {
    let lengths = [(0, 0), (1, 1), (2, 1), (1, 2), (6, 5), (2, 6), (9, 8), (8, 9), (0, 9), (9, 1)];
    for (figure, (n, m)) in [P1, P3].into_iter().flat_map(|f| lengths.map(|l| (f, l))) {
        w.title(format!("SIZE {n} {m}"));
        w.set((&figure.0[..n], &figure.1[..m]));
        refused(w);
    }
}

/// KEY and NUMBER come before DAMAGED, but for list and run. The last is a root with base 2 and no
/// child.
fn refused_tables(w: &mut Writer) {
    for arrays in unsound().into_iter().chain([built(9, 1, &[(1, 1, 2)])]) {
        w.title("DAMAGED");
        w.set(arrays);
        w.find_each(&["a", "ab", "c-0", "A", ""]);
        refused(w);
    }
}

/// Every call, with everything right that it is asked, and with one or two things wrong.
fn refused(w: &mut Writer) {
    w.audit();
    for (key, row) in [("b", 5), ("B", 0), ("b", 0), ("", 5), ("b", 1_000_001)] {
        w.insert_and_ask(key, row);
    }
    w.play("-b -B - =5 =65536");
    w.list_each(&[0, 4, 40]);
    w.run(0, "");
    w.run(0, "\n");
    w.run(40, line(1, b"b", 5));
    w.run(40, line(1, b"B", 0));
    w.keep();
    w.fresh();
    w.back();
}

/// KEY comes before NUMBER and before ABSENT, NUMBER before PRESENT, PRESENT before NO ROOM.
fn refusals(w: &mut Writer) {
    let scripts = [
        ("KEY", "+ab +a -aB - -_ +aB + +_"),
        ("NUMBER", "+ab +a =65536 =65535"),
        // Never inserted, a beginning of a live identifier, one character more, deleted twice.
        ("ABSENT", "+ab -b -a -abc -ab -ab"),
        ("PRESENT", "+ab +a +ab +a -ab +ab"),
    ];
    for (title, script) in scripts {
        w.title(title);
        w.start(9);
        w.play(script);
    }
    w.title("NO ROOM");
    w.start_with(4, &["a"]);
    for (key, row) in [("B", 0), ("b", 0), ("a", 0), ("a", 2), ("b", 2)] {
        w.insert_and_ask(key, row);
    }
}

/// One identifier of 1 to 34 letters: from 33 on the table is unsound, and find says KEY.
fn ladders(w: &mut Writer) {
    for letters in 1..=34 {
        w.title(format!("a ladder of {letters} letters"));
        w.set(ladder(letters));
        let key = "a".repeat(letters);
        w.every_call(&[&key, &key[1..], "ab"]);
    }
}

/// Identifiers of 31, 32 and 33 characters, in every order; and the longest of each character.
fn identifiers(w: &mut Writer) {
    w.title("identifiers of 31 to 33 characters");
    let [shorter, longest, longer] = [31, 32, 33].map(|length| "z".repeat(length));
    w.start(90);
    w.play(&format!("+{longer} +{longest} +{longest} +{shorter} -{longer} -{shorter} -{longest}"));
    w.start(90);
    w.play(&format!("+{longest} -{longer} -{shorter} -{longest}"));
    for length in [0, 1, 31, 32, 33, 34, 64, 255, 256, 4_096, 65_536] {
        w.title(format!("an identifier of {length} characters"));
        w.start(200);
        w.insert_and_ask(&"-".repeat(length), 1);
        w.delete_and_ask(&"-".repeat(length));
    }
}

/// Every byte as an identifier, and as the first, the last and a middle one of an identifier.
fn bytes(w: &mut Writer) {
    w.title("every byte as an identifier");
    w.start(200);
    for byte in 0..=255 {
        for key in [&[byte][..], &[byte, b'a'], &[b'a', byte], &[b'a', byte, b'b']] {
            w.insert(key, 1 + u32::from(byte));
            w.find(key);
        }
    }
    for byte in 0..=255 {
        w.find([byte]);
        w.delete([byte]);
    }
}

/// Rows and numbers of moves, on a table and on a damaged one.
fn numbers(w: &mut Writer) {
    let [damaged, ..] = unsound();
    for arrays in [(P3.0.into(), P3.1.into()), damaged] {
        w.title("rows and numbers of moves at the edges");
        w.set(arrays);
        w.keep();
        for row in [0, 1, 999_999, 1_000_000, 1_000_001, 1 << 31, u32::MAX] {
            for key in ["b", "a", "B"] {
                w.insert_and_ask(key, row);
                w.back();
            }
        }
        let over_32_bits = [1 << 32, (1 << 32) + 5, 1 << 63, u64::MAX];
        let ends = [0, 1, 65_535, 65_536, (1 << 31) - 1, 1 << 31, (1 << 32) - 1];
        for n in ends.into_iter().chain(over_32_bits) {
            w.compact(n);
            w.back();
        }
    }
}

/// The characters in the order of their bytes, which is not that of their codes.
const CHARACTERS: &str = "-0123456789abcdefghijklmnopqrstuvwxyz";

fn listings(w: &mut Writer) {
    for length in [9, 2] {
        w.title("the listing of an empty table");
        w.start(length);
        w.list_each(&[0, 3]);
    }
    w.title("the listing of all identifiers of one character");
    let keys: Vec<_> = (0..37).map(|n| &CHARACTERS[n..n + 1]).collect();
    w.start_with(100, &keys);
    w.list_each(&[480, 481, 500]);
    w.title("the listing of identifiers that begin alike, with rows at the edges");
    w.start(80);
    for (key, row) in [("b", 1), ("a-", 1_000_000), ("a0", 999_999), ("ab", 48_879)] {
        w.insert(key, row);
    }
    for (key, row) in [("aaa", 2), ("a", 3), ("aa", 4)] {
        w.insert(key, row);
    }
    w.list_each(&[110, 0]);
    w.title("the listing of identifiers of 31 and 32 characters");
    w.start_with(90, &["z".repeat(32).as_str(), &"z".repeat(31)]);
    w.list_each(&[147, 148]);
    sixty(w);
}

/// Thirty identifiers of two characters, and each of them with one more.
fn sixty(w: &mut Writer) {
    w.title("the listing of sixty identifiers");
    let character = |i: usize| &CHARACTERS[i % 37..=i % 37];
    w.start(300);
    for n in 38..98 {
        let i = n / 2;
        let key = [character(i % 4 * 9), character(i * 5), character(i * 11)].concat();
        w.insert(&key[..2 + n % 2], n as u32 + 1);
    }
    w.list_each(&[959, 960]);
}

/// The greatest length and one more.
fn greatest_length(w: &mut Writer) {
    for length in [65_536, 65_537] {
        w.title(format!("length {length}"));
        w.start(length);
        w.find_each(&["a", "ab", "c-0", "A"]);
        w.play("+a-9 +a -a-9 =65535");
        w.list_all();
        w.run_all([line(1, b"zz", 9), line(2, b"a", 0)].join(&b'\n'), 1);
    }
    w.title("unequal great lengths");
    w.set((vec![0; 65_536], vec![0; 65_535]));
    w.fresh();
    w.audit();
}

/// The leaf of a is in the last cell, and all cells but that, a's and the root are free.
fn far(w: &mut Writer) {
    w.title("a leaf in the last cell of the greatest length");
    w.set(built(65_536, 65_535, &[(1, 1, 1), (3, 1, 65_534), (65_535, 3, -7)]));
    w.keep();
    w.audit();
    w.find("a");
    w.list_each(&[12, 13]);
    for script in ["=0", "=1", "-a", "+b", "+a-", "+a"] {
        w.play(script);
        w.back();
    }
}
