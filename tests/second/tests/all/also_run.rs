//! Document 01's paragraph "Also run", each part of it.

use crate::common::*;
use crate::figures::p3;
use second::*;

#[test]
fn rows_at_their_limits() {
    assert_eq!(Pair::fresh(9).insert("a", 1_000_000), done(0));
    assert_eq!(Pair::fresh(9).insert("a", 0), refused(NUMBER));
    assert_eq!(Pair::fresh(9).insert("a", 1_000_001), refused(NUMBER));
    let mut table = Pair::fresh(9);
    table.insert("a", 1_000_000);
    assert_eq!(table.find("a"), done(1_000_000));
}

#[test]
fn identifiers_at_their_limits() {
    let mut table = Pair::fresh(80);
    assert_eq!(table.insert([b'z'; 32], 5), done(0));
    assert_eq!(table.find([b'z'; 32]), done(5));
    assert_eq!(table.insert([b'z'; 33], 5), refused(KEY));
    assert_eq!(table.insert("", 5), refused(KEY));
}

#[test]
fn lengths_at_their_limits() {
    let answer = |length| fresh(&mut vec![3; length], &mut vec![3; length]);
    assert_eq!(answer(65_536), done(0));
    assert_eq!(answer(2), done(0));
    assert_eq!(answer(1), refused(SIZE));
    assert_eq!(answer(0), refused(SIZE));
    assert_eq!(answer(65_537), refused(SIZE));
    assert_eq!(Pair::fresh(2), Pair::new([1, 1], [-2, 1]));
    let mut table = Pair::fresh(65_536);
    assert_eq!((&table.base[..3], &table.check[..3]), (&[1, 1, 0][..], &[-2, 1, 0][..]));
    assert!(table.base[2..].iter().chain(&table.check[2..]).all(|&element| element == 0));
    assert_eq!(table.insert("a-9", 5), done(0));
    assert_eq!((table.find("a-9"), table.audit()), (done(5), done(0)));
}

#[test]
fn a_live_identifier_is_present_with_its_row() {
    let (number, value) = (PRESENT, 9);
    assert_eq!(p3().insert("a", 3), Answer { number, value });
}
