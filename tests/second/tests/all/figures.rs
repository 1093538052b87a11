//! The figures P1 to P12 of document 01, every element of both arrays.

use crate::common::*;
use second::arrays::{Figure, P1, P2, P3, P4, P5};
use second::table::placed_base;
use second::*;

fn figure((base, check): Figure) -> Pair {
    Pair::new(base, check)
}

pub fn p1() -> Pair {
    figure(P1)
}

pub fn p2() -> Pair {
    figure(P2)
}

pub fn p3() -> Pair {
    figure(P3)
}

pub fn p4() -> Pair {
    figure(P4)
}

pub fn p5() -> Pair {
    figure(P5)
}

/// A step of the table: from one figure by a call to another.
fn leads(mut from: Pair, call: impl FnOnce(&mut Pair) -> Answer, to: Pair, value: u32) {
    assert_eq!(call(&mut from), done(value));
    assert_eq!(from, to);
    assert_eq!(to.audit(), done(0));
}

#[test]
fn p1_to_p6_hold_in_every_element() {
    assert_eq!(Pair::fresh(9), p1());
    assert_eq!(p1().audit(), done(0));
    leads(p1(), |t| t.insert("ab", 7), p2(), 0);
    leads(p2(), |t| t.insert("a", 9), p3(), 1);
    leads(p3(), |t| t.compact(5), p4(), 1);
    leads(p3(), |t| t.delete("ab"), p5(), 7);
    leads(p5(), |t| t.delete("a"), p1(), 9);
}

#[test]
fn p7_is_the_listing_of_p3() {
    assert_eq!(p3().listing(), "016100000009\n02616200000007\n");
    assert_eq!(p1().listing(), "");
}

#[test]
fn p8_and_p9_say_where_there_is_no_room() {
    let insert = |length, key| Pair::fresh(length).insert(key, 1);
    assert_eq!(insert(4, "a"), done(0));
    assert_eq!(insert(3, "a"), refused(NO_ROOM));
    assert_eq!(insert(4, "b"), refused(NO_ROOM));
    assert_eq!(insert(4, "ab"), refused(NO_ROOM));
    assert_eq!(insert(5, "b"), done(0));
    assert_eq!(insert(5, "ab"), done(0));
}

#[test]
fn p10_is_unsound() {
    let p10 = p3().changed(&[('c', 4, -8)]);
    assert_eq!(p10.audit(), refused(DAMAGED));
}

/// The cells of P11 and P12: used up to 39 but for the free ones named.
fn used_but(free: &[usize]) -> impl Fn(usize) -> bool + '_ {
    |cell| (1..=39).contains(&cell) && !free.contains(&cell)
}

#[test]
fn p11_and_p12_are_placed_bases() {
    let p11 = [28, 29, 31, 32, 33, 34, 35, 36, 38];
    assert_eq!(placed_base(&[3, 4, 5], used_but(&p11)), 28);
    let p12 = [&[18, 19, 21, 22], &p11[..]].concat();
    assert_eq!(placed_base(&[21, 23], used_but(&p12)), 8);
}
