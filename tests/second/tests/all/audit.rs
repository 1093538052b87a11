//! The audit: for each part of rules 1 to 7 a table that breaks it, made from a sound one by
//! changing a few elements or built by hand; and extreme values at every element.

use crate::common::*;
use crate::damage::every_call_ends;
use crate::figures::{p1, p2, p3};
use second::*;

/// The part of a rule that is broken, and the changes that break it.
type Case<'a> = (&'a str, &'a [(char, usize, i32)]);

/// Each of these changes to a sound table makes it unsound.
fn unsound(sound: &Pair, cases: &[Case]) {
    assert_eq!(sound.audit(), done(0));
    for (part, changes) in cases {
        assert_eq!(sound.changed(changes).audit(), refused(DAMAGED), "{part}");
    }
}

/// This built table is unsound.
fn unsound_built(length: usize, size: usize, used: &[(usize, i32, i32)]) {
    let table = Pair::built(length, size, used);
    assert_eq!(table.audit(), refused(DAMAGED), "{table:?}");
}

#[test]
fn rule_1_size_and_zeros_past_it() {
    unsound(
        &p3(),
        &[
            ("size 0", &[('b', 0, 0)]),
            ("size negative", &[('b', 0, -7)]),
            ("size past the last cell", &[('b', 0, 9)]),
            ("a used cell past the size", &[('b', 0, 6), ('c', 6, -7)]),
            ("base past the size", &[('b', 8, 1)]),
            ("a row past the size", &[('b', 8, -1)]),
            ("check past the size", &[('c', 8, 3)]),
            ("a link past the size", &[('c', 8, -9)]),
        ],
    );
    assert_eq!(Pair::new([1], [1]).audit(), refused(SIZE));
}

#[test]
fn rule_2_used_or_free() {
    unsound(
        &p3(),
        &[
            ("check 0 of a free cell", &[('c', 4, 0)]),
            ("check 0 and the chain past it", &[('c', 4, 0), ('c', 0, -6)]),
            ("check 0 of the last", &[('b', 0, 8), ('c', 6, -9)]),
            ("a free cell with a base", &[('b', 4, 1)]),
            ("a free cell with a row", &[('b', 6, -1)]),
        ],
    );
    let grown = p3().changed(&[('b', 0, 8), ('c', 6, -8), ('c', 8, -9)]);
    assert_eq!(grown.audit(), done(0), "the size may exceed the largest used cell");
}

#[test]
fn rule_3_the_chain() {
    unsound(
        &p3(),
        &[
            ("the first free cell left out", &[('c', 0, -6)]),
            ("a free cell left out", &[('c', 4, -8)]),
            ("no chain", &[('c', 0, -8)]),
            ("a positive head", &[('c', 0, 4)]),
            ("head 0", &[('c', 0, 0)]),
            ("the last link short", &[('c', 6, -7)]),
            ("the last link long", &[('c', 6, -9)]),
            ("a link back", &[('c', 6, -4)]),
            ("a link to itself", &[('c', 4, -4)]),
            ("a link to a used cell", &[('c', 4, -5)]),
            ("descending", &[('c', 0, -6), ('c', 6, -4), ('c', 4, -8)]),
        ],
    );
    unsound(
        &p2(),
        &[
            ("no free cell, head short", &[('c', 0, -4)]),
            ("no free cell, head long", &[('c', 0, -6)]),
            ("no free cell, head 0", &[('c', 0, 0)]),
        ],
    );
}

#[test]
fn rule_4_the_root() {
    unsound(
        &p3(),
        &[
            ("the root's check", &[('c', 1, 3)]),
            ("a free root", &[('c', 0, -1), ('c', 1, -4), ('b', 1, 0)]),
            ("the root's base 0", &[('b', 1, 0)]),
            ("the root a leaf", &[('b', 1, -1)]),
        ],
    );
    unsound(&p1(), &[("base 2 without children", &[('b', 1, 2)])]);
    assert_eq!(Pair::built(9, 7, &[(1, 1, 5), (2, 7, -4), (7, 1, 1)]).audit(), done(0));
}

#[test]
fn rule_5_parents_and_codes() {
    unsound(
        &p3(),
        &[
            ("a free parent", &[('c', 5, 4)]),
            ("a parent past the size", &[('c', 5, 8)]),
            ("a parent past the last cell", &[('c', 5, 9)]),
            ("its own parent", &[('c', 5, 5)]),
            ("a leaf as parent", &[('c', 5, 2)]),
            ("code 0", &[('b', 3, 5)]),
            ("a negative code", &[('b', 3, 6)]),
        ],
    );
    // A cell that names itself and has itself as child: "other than t", and rule 7 as well.
    unsound_built(9, 5, &[(1, 1, 1), (5, 5, 3)]);
    // A leaf with a cell below it whose code is in range, so that only "positive base" refuses it.
    unsound_built(9, 6, &[(1, 1, 1), (2, 3, -7), (3, 1, 1), (5, 2, 5), (6, 5, -3)]);
    unsound_built(60, 40, &[(1, 1, 1), (2, 40, -3), (40, 1, 1)]);
    Pair::sound(60, 39, &[(1, 1, 1), (2, 39, -3), (39, 1, 1)]);
}

#[test]
fn rule_6_leaves_and_inner_cells() {
    unsound(
        &p3(),
        &[
            ("code 1 with a base", &[('b', 5, 3)]),
            ("code 1 with base 0", &[('b', 5, 0)]),
            ("a row past the range", &[('b', 5, -1_000_001)]),
            ("the least row of all", &[('b', 5, i32::MIN)]),
            ("another code with a row", &[('b', 7, -3), ('c', 2, 3), ('b', 3, 1)]),
            ("another code with base 0", &[('b', 7, 0)]),
            ("no child", &[('c', 0, -2), ('c', 2, -4), ('b', 2, 0)]),
        ],
    );
    // Code 1 at a cell with a base and a leaf below it; a row at another code.
    unsound_built(9, 4, &[(1, 1, 1), (3, 1, 1), (2, 3, 3), (4, 2, -5)]);
    unsound_built(9, 3, &[(1, 1, 1), (3, 1, -4)]);
    let greatest = p3().changed(&[('b', 5, -1_000_000), ('b', 2, -1)]);
    assert_eq!(greatest.audit(), done(0));
}

/// One identifier of a's in cells 3, 4, 5 and upward, and its leaf in the cell after the last.
fn a_line_of(characters: usize) -> Pair {
    let (first, last) = (3, characters + 2);
    let mut pair = Pair::built(last + 9, last + 1, &[(1, 1, 1)]);
    for cell in first..=last {
        // The next label is a with code 2, or after the last the end mark with code 1.
        pair.base[cell] = if cell < last { cell as i32 - 1 } else { cell as i32 };
        pair.check[cell] = if cell == first { 1 } else { cell as i32 - 1 };
    }
    (pair.base[last + 1], pair.check[last + 1]) = (-8, last as i32);
    pair.check[2] = -(last as i32 + 2);
    pair
}

#[test]
fn rule_7_the_way_to_the_root() {
    assert_eq!(a_line_of(32).audit(), done(0));
    assert_eq!(a_line_of(32).find([b'a'; 32]), done(8));
    assert_eq!(a_line_of(33).audit(), refused(DAMAGED), "34 steps");
    assert_eq!(a_line_of(40).audit(), refused(DAMAGED), "41 steps");
    unsound_built(9, 2, &[(1, 1, 1), (2, 1, -5)]);
    // Rings apart from the root: two cells, three cells, two cells with a leaf.
    unsound_built(20, 12, &[(1, 1, 1), (10, 12, 6), (12, 10, 9)]);
    unsound_built(20, 12, &[(1, 1, 1), (8, 12, 7), (10, 8, 9), (12, 10, 5)]);
    unsound_built(20, 12, &[(1, 1, 1), (6, 10, -9), (10, 12, 5), (12, 10, 8)]);
    // The same beside a sound identifier.
    let beside = [(1, 1, 1), (3, 1, 1), (2, 3, -4), (10, 12, 6), (12, 10, 9)];
    unsound_built(20, 12, &beside);
    Pair::sound(20, 12, &beside[..3]);
}

#[test]
fn a_long_line_and_a_great_ring_are_refused_quickly() {
    let line = a_line_of(65_000);
    assert_eq!(line.audit(), refused(DAMAGED), "65,001 steps");
    // Cell 3 now hangs below the last cell, where the code is 2; the root has no children left.
    let ring = line.changed(&[('b', 65_002, 1), ('c', 3, 65_002)]);
    let ring = ring.changed(&[('b', 65_003, 0), ('c', 65_003, -65_004), ('c', 2, -65_003)]);
    assert_eq!(ring.audit(), refused(DAMAGED));
}

#[test]
fn extreme_values_at_every_element() {
    for table in [p1(), p2(), p3(), a_line_of(2)] {
        for element in 0..table.base.len() {
            for value in EXTREMES.into_iter().chain(-10..=10) {
                every_call_ends(&table.changed(&[('b', element, value)]));
                every_call_ends(&table.changed(&[('c', element, value)]));
            }
        }
    }
}
