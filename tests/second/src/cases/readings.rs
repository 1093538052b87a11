//! The readings of the table in docs/DECISIONS.md, under their numbers: the calls that show which
//! of two ways a place of document 01 is taken, or that a place easily misread is read rightly.
//! Tables are given by their used cells (cell, parent, base).

use super::Writer;
use crate::arrays::{built, unsound, Arrays, P1, P2, P3};
use crate::sheets::line;

type Reading = (&'static str, fn(&mut Writer));

const READINGS: [Reading; 30] = [
    ("A7 what a walk counts is not answered yet; where it stops on unsound arrays", walks),
    ("A12 audit answers SIZE, DAMAGED or done, value 0", audits),
    ("T1 a cell past the size is simply taken", taken),
    ("T2 a cell past the last cell is a collision", past_the_last_cell),
    ("T3 further labels see the cells that the move left", left_by_the_move),
    ("T4 children about to move hold their cells", held),
    ("T5 a later label without room leaves nothing moved", no_room_later),
    ("T6 whether a base fits is asked after the search", fit),
    ("T7 the node where the walk stopped moves, not the owner of the cell", the_node_moves),
    ("T8 the root's first child sits at 1 plus its code, or there is no room", first_child),
    ("T9 the count is of the children that moved", count),
    ("T10 the size never falls in an insert", size_stays),
    ("T11 bases start at 1, past the chain's end too", from_1),
    ("T12 no call can meet a chain with gaps: all cells of a placement are unused", unused),
    ("T13 a delete runs one step and answers the row", one_step),
    ("T14 every step trims, and compact 0 too", trims),
    ("T15 a step looks at one parent alone", one_parent),
    ("T16 a move counts once however many children", one_move),
    ("T17 the root is never freed and gets base 1 back", root),
    ("T18 after n moves no further step", no_further_step),
    ("T19 extreme values and rings are met safely", extremes),
    ("T20 a parent is a used cell within the size", parents),
    ("T21 a leaf directly under the root is unsound", shallow),
    ("T22 a chain that skips a free cell is unsound", skipped),
    ("T23 find trusts nothing and does not read base[0]", trusts_nothing),
    ("T26 LINE before KEY before NUMBER before PRESENT", order_in_a_line),
    ("T27 DAMAGED comes last in single calls and first in runs and lists", damaged),
    ("T28 lines and their lengths", lengths_of_lines),
    ("T29 numbers go up to ffffffff", greatest_numbers),
    ("T30 a run is refused as a whole and counts refused lines", whole_runs),
];

pub fn write(w: &mut Writer) {
    for (title, reading) in READINGS {
        w.title(title);
        reading(w);
    }
}

/// P3 with elements of base ('b') or check changed.
fn changed(changes: &[(char, usize, i32)]) -> Arrays {
    let (mut base, mut check) = P3;
    for &(array, element, value) in changes {
        match array {
            'b' => base[element] = value,
            _ => check[element] = value,
        }
    }
    (base.into(), check.into())
}

/// A script on a fresh table.
fn play(w: &mut Writer, length: usize, script: &str) {
    w.start(length);
    w.play(script);
}

/// Identifiers into a fresh table, with rows 1, 2, 3.
fn insert(w: &mut Writer, length: usize, keys: &[&str]) {
    w.start(length);
    for (row, key) in (1..).zip(keys) {
        w.insert_and_ask(key, row);
    }
}

/// A script on a table that stands already.
fn go_on(w: &mut Writer, arrays: Arrays, script: &str) {
    w.set(arrays);
    w.audit();
    w.play(script);
}

/// A line alone as a sheet, on P3.
fn answered(w: &mut Writer, line: impl AsRef<[u8]>) {
    w.set(P3);
    w.run_all(line, 2);
}

/// The walk to ab breaks off at its first label, its second, its end mark, and at the row.
fn walks(w: &mut Writer) {
    for change in [('c', 3, 7), ('b', 3, 5), ('c', 2, 3), ('b', 2, 0)] {
        w.set(changed(&[change]));
        w.find_each(&["a", "ab", "abc", "b"]);
    }
}

fn audits(w: &mut Writer) {
    let arrays = [(P3.0.to_vec(), P3.1.to_vec()), changed(&[('c', 4, -8)]), (vec![1], vec![1])];
    for arrays in arrays {
        w.set(arrays);
        w.audit();
    }
}

fn taken(w: &mut Writer) {
    w.set(P2);
    w.insert("e", 3);
    insert(w, 9, &["ab", "e"]);
}

fn past_the_last_cell(w: &mut Writer) {
    play(w, 6, "+c +b -c +bc");
}

fn left_by_the_move(w: &mut Writer) {
    insert(w, 6, &["a", "aa"]);
}

/// Below a, base 3 would be clear but for the cell 5 that a's own end mark holds.
fn held(w: &mut Writer) {
    go_on(w, built(9, 6, &[(1, 1, 1), (2, 6, -2), (3, 1, 4), (5, 3, -1), (6, 3, 1)]), "=5");
    play(w, 7, "+aa +a =5");
}

fn no_room_later(w: &mut Writer) {
    insert(w, 6, &["a", "aaa"]);
    insert(w, 20, &["a", &"a".repeat(32)]);
}

fn fit(w: &mut Writer) {
    insert(w, 2, &["a"]);
}

/// For ad, a's base leads to the one child of ac.
fn the_node_moves(w: &mut Writer) {
    insert(w, 12, &["ab", "ac", "ad"]);
}

fn first_child(w: &mut Writer) {
    insert(w, 3, &["a", "-"]);
    insert(w, 39, &["-"]);
    insert(w, 40, &["-"]);
}

fn count(w: &mut Writer) {
    w.set(P2);
    w.insert("a", 9);
    w.set(P1);
    w.insert("a", 9);
    insert(w, 12, &["ab", "ac", "ad"]);
}

fn size_stays(w: &mut Writer) {
    w.set(built(13, 12, &[(1, 1, 1), (2, 12, -7), (3, 1, 9), (12, 3, 1)]));
    w.insert_and_ask("ac", 8);
}

fn from_1(w: &mut Writer) {
    insert(w, 60, &["a-"]);
}

/// The free cells are 3, 6 and 8 to 12, with used ones between.
fn unused(w: &mut Writer) {
    let used = [(1, 1, 1), (2, 4, -1), (4, 1, 1), (5, 1, 6), (7, 5, -2)];
    for key in ["ca", "cb", "cc", "bb", "bc", "bbb"] {
        w.set(built(20, 12, &used));
        w.insert_and_ask(key, 3);
    }
}

/// Three identifiers a, b and c, the leaves of a and b far up.
fn high_leaves() -> Arrays {
    let nodes = [(1, 1, 1), (3, 1, 20), (4, 1, 24), (5, 1, 1)];
    let leaves = [(2, 5, -30), (21, 3, -10), (25, 4, -20)];
    built(30, 28, &[&nodes[..], &leaves].concat())
}

/// After the step another could be made, which compact makes.
fn one_step(w: &mut Writer) {
    go_on(w, high_leaves(), "-c =9");
    play(w, 7, "+b +ab -b =9");
}

/// The largest used cell is moved down by the last insertion of the script, and the size stays.
/// No move asked for, a step that moves nothing, and such a step after a delete all trim it.
fn trims(w: &mut Writer) {
    go_on(w, high_leaves(), "=0");
    let idle = [(1, 1, 1), (2, 3, -5), (3, 1, 1)];
    for script in ["=0", "=1", "=65535", "-a"] {
        go_on(w, built(9, 8, &idle), script);
    }
    for script in ["=0", "=3"] {
        go_on(w, built(9, 8, &idle[..1]), script);
    }
    for end in ["=0", "=1", "-abc"] {
        play(w, 9, &format!("+ba +abc -ba +ab {end}"));
    }
}

/// The root's child far up cannot move; the other one's leaf could, and stays.
fn one_parent(w: &mut Writer) {
    let used = [(1, 1, 1), (3, 1, 9), (4, 39, -2), (10, 3, -1), (39, 1, 3)];
    go_on(w, built(50, 39, &used), "=5");
    play(w, 6, "+a +c -a =5");
}

fn one_move(w: &mut Writer) {
    let nodes = [(1, 1, 1), (3, 1, 20), (22, 3, 1), (23, 3, 4), (24, 3, 3)];
    let leaves = [(2, 22, -1), (4, 24, -3), (5, 23, -2)];
    go_on(w, built(30, 24, &[&nodes[..], &leaves].concat()), "=1 =1");
    w.find_each(&["aa", "ab", "ac"]);
    play(w, 13, "+e +ab +b =5");
}

/// The root has base 5, or base 2, when its last child goes.
fn root(w: &mut Writer) {
    go_on(w, built(9, 8, &[(1, 1, 5), (2, 7, -4), (7, 1, 1)]), "-a");
    play(w, 7, "+ac +c -c -ac");
}

/// Two moves can be made, one by one or both; a third step moves nothing.
fn no_further_step(w: &mut Writer) {
    for script in ["=1 =1 =1", "=2", "=3"] {
        go_on(w, high_leaves(), script);
    }
    for script in ["=1 =1 =1", "=2 =2"] {
        play(w, 9, &format!("+b +a +ac -b {script}"));
    }
}

fn extremes(w: &mut Writer) {
    for change in [('b', 3, i32::MAX), ('b', 5, i32::MIN), ('c', 5, i32::MAX)] {
        w.set(changed(&[change]));
        w.find("a");
        w.audit();
    }
    w.set(built(20, 12, &[(1, 1, 1), (10, 12, 9), (12, 10, 6)]));
    w.audit();
}

/// A free cell, cells past the size and past the last one, a leaf, the cell itself.
fn parents(w: &mut Writer) {
    for parent in [4, 8, 9, 2, 5] {
        w.set(changed(&[('c', 5, parent)]));
        w.audit();
    }
}

fn shallow(w: &mut Writer) {
    let [.., shallow] = unsound();
    w.set(shallow);
    w.audit();
}

fn skipped(w: &mut Writer) {
    for change in [('c', 0, -6), ('c', 4, -8)] {
        w.set(changed(&[change]));
        w.audit();
    }
}

/// Rows at the edges of their range, any size, and a leaf past the size, in the last cell.
fn trusts_nothing(w: &mut Writer) {
    let rows = [-1, -1_000_000, -1_000_001].map(|row| ('b', 5, row));
    let sizes = [i32::MIN, -1, 0, 1, 8, 9, i32::MAX].map(|size| ('b', 0, size));
    for change in rows.into_iter().chain(sizes) {
        w.set(changed(&[change]));
        w.find_each(&["a", "ab"]);
    }
    w.set(built(4, 1, &[(1, 1, 1), (3, 1, 1), (2, 3, -6)]));
    w.find("a");
}

fn order_in_a_line(w: &mut Writer) {
    for (operation, key, number) in [(2, "A", 1), (4, "a", 70_000), (1, "A", 0), (1, "a", 0)] {
        answered(w, line(operation, key.as_bytes(), number));
    }
}

fn damaged(w: &mut Writer) {
    w.set(changed(&[('c', 0, 0)]));
    for (key, row) in [("A", 1), ("a", 0), ("a", 5)] {
        w.insert(key, row);
    }
    w.delete("A");
    w.delete("a");
    w.compact(65_536);
    w.compact(5);
    w.run(0, line(1, b"A", 1));
    w.run(0, "");
    w.list(0);
}

/// The longest line is KEY, longer ones are LINE; CR, upper case; final line feeds.
fn lengths_of_lines(w: &mut Writer) {
    let longest = line(1, &[b'a'; 255], 1);
    answered(w, [&longest[..], b"\n"].concat());
    for more in [0, 1, 2, 5_000] {
        answered(w, [&longest[..], &b"0".repeat(more)].concat());
    }
    answered(w, line(1, b"no", 10).to_ascii_uppercase());
    let find = line(3, b"a", 0);
    for parts in [[&find[..], b"\r\n"], [b"\n", &find], [&find, b"\n"], [b"", b""], [b"\n", b"\n"]]
    {
        answered(w, parts.concat());
    }
    answered(w, [&find[..], &find].join(&b'\n'));
    answered(w, [&b""[..], &find, b""].join(&b'\n'));
}

fn greatest_numbers(w: &mut Writer) {
    for number in [0x7fff_ffff, 0x8000_0000, 0xffff_ffff] {
        for (operation, key) in [(1, "b"), (4, ""), (2, "a")] {
            answered(w, line(operation, key.as_bytes(), number));
        }
    }
}

fn whole_runs(w: &mut Writer) {
    let sheet = [line(2, b"a", 0), vec![], line(2, b"b", 0)].join(&b'\n');
    for room in [0, 32, 33, 34] {
        w.set(P3);
        w.run(room, &sheet);
    }
    answered(w, line(1, b"ab", 3));
    w.fill(1, 0, 0);
    w.run(33, &sheet);
    w.set(changed(&[('c', 4, -8)]));
    w.run(33, &sheet);
}
