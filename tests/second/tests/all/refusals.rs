//! Every refusal of every call, and the order in which they are checked: inputs that break two
//! rules at once. That a refused call changes nothing is watched by the calls of `Pair`.

use crate::common::*;
use crate::figures::{p1, p3};
use second::sheets::line;
use second::*;

/// P3 with a chain that skips a cell; a and ab are still found in it.
fn damaged() -> Pair {
    p3().changed(&[('c', 4, -8)])
}

/// Arrays of lengths that no call takes.
fn wrong_lengths() -> Vec<Pair> {
    let lengths = [(0, 0), (1, 1), (9, 8), (8, 9), (0, 9), (9, 1), (65_537, 65_537)];
    let pairs = lengths.map(|(base, check)| Pair::new(vec![1; base], vec![1; check]));
    pairs.to_vec()
}

#[test]
fn size_comes_first_in_every_call() {
    for mut pair in wrong_lengths() {
        let before = pair.clone();
        assert_eq!(fresh(&mut pair.base, &mut pair.check), refused(SIZE));
        assert_eq!(pair, before);
        assert_eq!(pair.find("A"), refused(SIZE));
        assert_eq!(pair.insert("A", 0), refused(SIZE));
        assert_eq!(pair.delete("A"), refused(SIZE));
        assert_eq!(pair.compact(70_000), refused(SIZE));
        assert_eq!(pair.audit(), refused(SIZE));
        assert_eq!(pair.list(&mut []), refused(SIZE));
        assert_eq!(pair.run(b"\n", &mut []), refused(SIZE));
    }
}

#[test]
fn key_is_every_wrong_identifier() {
    let mut wrong: Vec<Vec<u8>> = vec![vec![], vec![b'a'; 33], vec![b'a'; 300]];
    for byte in 0..=255u8 {
        let allowed = byte.is_ascii_lowercase() || byte.is_ascii_digit() || byte == b'-';
        let number = if allowed { DONE } else { KEY };
        assert_eq!(Pair::fresh(80).insert([byte], 1).number, number);
        if !allowed {
            wrong.push(vec![b'a', byte]);
        }
    }
    for key in wrong {
        assert_eq!(p3().find(&key), refused(KEY));
        assert_eq!(p3().insert(&key, 1), refused(KEY));
        assert_eq!(p3().delete(&key), refused(KEY));
    }
}

#[test]
fn insert_checks_key_number_damaged_present_no_room() {
    assert_eq!(damaged().insert("A", 0), refused(KEY));
    assert_eq!(damaged().insert("a", 0), refused(NUMBER));
    assert_eq!(damaged().insert("a", u32::MAX), refused(NUMBER));
    assert_eq!(damaged().insert("a", 1), refused(DAMAGED));
    let (number, value) = (PRESENT, 1);
    assert_eq!(Pair::with(4, &["a"]).insert("a", 2), Answer { number, value });
    assert_eq!(Pair::with(4, &["a"]).insert("b", 2), refused(NO_ROOM));
}

#[test]
fn delete_checks_key_damaged_absent() {
    assert_eq!(damaged().delete("A"), refused(KEY));
    assert_eq!(damaged().delete("b"), refused(DAMAGED));
    assert_eq!(damaged().delete("a"), refused(DAMAGED));
    for key in ["b", "abc", "aba", "ba", "-"] {
        assert_eq!(p3().delete(key), refused(ABSENT));
    }
}

#[test]
fn find_checks_key_absent_and_leaves_damaged_out() {
    assert_eq!(damaged().find("A"), refused(KEY));
    assert_eq!(damaged().find("b"), refused(ABSENT));
    assert_eq!(damaged().find("ab"), done(7));
}

#[test]
fn compact_checks_number_damaged() {
    assert_eq!(damaged().compact(65_536), refused(NUMBER));
    assert_eq!(damaged().compact(65_535), refused(DAMAGED));
    assert_eq!(p3().compact(65_536), refused(NUMBER));
    assert_eq!(p3().compact(u32::MAX), refused(NUMBER));
    assert_eq!(p3().compact(65_535), done(1));
}

#[test]
fn list_checks_damaged_no_space() {
    assert_eq!(damaged().list(&mut []), refused(DAMAGED));
    assert_eq!(p3().list(&mut [b'#'; 27]), refused(NO_SPACE));
    assert_eq!(p3().list(&mut [b'#'; 28]), done(28));
    assert_eq!(p1().list(&mut []), done(0));
}

#[test]
fn run_checks_damaged_no_space() {
    assert_eq!(damaged().run(b"\n", &mut []), refused(DAMAGED));
    assert_eq!(p3().run(b"\n", &mut [b'#'; 10]), refused(NO_SPACE));
    assert_eq!(p3().run(b"\n", &mut [b'#'; 11]), done(1));
    let deletes = [line(2, b"a", 0), line(2, b"ab", 0)].join(&b'\n');
    assert_eq!(p3().run(&deletes, &mut [b'#'; 21]), refused(NO_SPACE));
    assert_eq!(p3().run(&deletes, &mut [b'#'; 22]), done(2));
}

#[test]
fn every_reason_of_line() {
    let right = String::from_utf8(line(1, b"z", 10)).unwrap();
    assert_eq!(Pair::fresh(99).answer(&right), done(0));
    let mut wrong: Vec<Vec<u8>> = (0..right.len()).map(|cut| right[..cut].into()).collect();
    wrong[0] = b"\n".to_vec();
    for byte in (0..=255).filter(|byte| !b"0123456789abcdef\n".contains(byte)) {
        wrong.extend((0..right.len()).map(|place| {
            let mut line = right.clone().into_bytes();
            line[place] = byte;
            line
        }));
    }
    let others =
        ["00", "05", "10", "11", "ff"].map(|operation| operation.to_string() + &right[2..]);
    wrong.extend(others.map(String::into_bytes));
    let lengths = ["00", "02", "ff"].map(|length| format!("01{length}{}", &right[4..]));
    wrong.extend(lengths.map(String::into_bytes));
    wrong.extend([line(2, b"z", 1), line(3, b"z", u32::MAX), line(4, b"z", 0)]);
    wrong
        .extend([format!("{right}0"), format!("{right}00"), format!(" {right}")].map(String::into));
    for line in wrong {
        assert_eq!(Pair::fresh(99).answer(&line), refused(LINE), "{line:?}");
    }
}

#[test]
fn a_line_checks_line_key_number_present_or_absent_no_room() {
    let full = Pair::with(4, &["a"]);
    let answer = |operation, key: &str, number| {
        let line = line(operation, key.as_bytes(), number);
        full.clone().answer(line)
    };
    assert_eq!(answer(2, "A", 1), refused(LINE));
    assert_eq!(answer(3, "", 1), refused(LINE));
    assert_eq!(answer(9, "A", 0), refused(LINE));
    assert_eq!(answer(4, "A", 65_536), refused(LINE));
    assert_eq!(answer(1, "A", 0), refused(KEY));
    assert_eq!(answer(1, "", 1_000_001), refused(KEY));
    assert_eq!(answer(2, "", 0), refused(KEY));
    assert_eq!(answer(3, "a_", 0), refused(KEY));
    assert_eq!(answer(1, "a", 0), refused(NUMBER));
    assert_eq!(answer(1, "b", u32::MAX), refused(NUMBER));
    assert_eq!(answer(4, "", 65_536), refused(NUMBER));
    let (number, value) = (PRESENT, 1);
    assert_eq!(answer(1, "a", 2), Answer { number, value });
    assert_eq!(answer(2, "b", 0), refused(ABSENT));
    assert_eq!(answer(3, "b", 0), refused(ABSENT));
    assert_eq!(answer(1, "b", 2), refused(NO_ROOM));
    assert_eq!(answer(3, "a", 0), done(1));
    assert_eq!(answer(4, "", 65_535), done(0));
    assert_eq!(answer(2, "a", 0), done(1));
}

#[test]
fn a_refused_line_changes_no_cell_and_the_run_goes_on() {
    let refusals = [line(1, b"a", 0), line(1, b"b", 2), line(2, b"b", 0), vec![]];
    let mut table = Pair::with(4, &["a"]);
    let before = table.clone();
    let answers = table.answers(refusals.join(&b'\n').as_slice());
    assert_eq!(answers, "0300000000\n0700000000\n0600000000\n");
    assert_eq!(table, before);
    let sheet = [line(1, b"b", 2), line(3, b"a", 0)].join(&b'\n');
    assert_eq!(table.answers(sheet), "0700000000\n0000000001\n");
}
