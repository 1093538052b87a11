//! The places where document 01 is easily misread, one test for each, numbered T1 to T30 as in
//! the list of readings. (T24 and T25 are about later requests and have no test here.)

use crate::common::*;
use crate::figures::{p1, p2, p3};
use second::sheets::line;
use second::table::placed_base;
use second::*;

#[test]
fn t01_a_cell_past_the_size_is_simply_taken() {
    let mut table = p2();
    assert_eq!(table.insert("e", 3), done(0));
    let after = Pair::new([7, 1, -7, 1, 1, -3, 0, 4, 0], [-6, 1, 4, 1, 3, 7, -8, 1, 0]);
    assert_eq!(table, after);
}

#[test]
fn t02_a_cell_past_the_last_cell_is_a_collision() {
    let mut table = Pair::with(6, &["c", "b"]);
    assert_eq!(table.delete("c"), done(1));
    assert_eq!(table.base, [4, 1, 0, -2, 2, 0]);
    assert_eq!(table.insert("bc", 3), done(1));
    let after = Pair::new([5, 1, -2, -3, 1, 2], [-6, 1, 4, 5, 1, 4]);
    assert_eq!(table, after);
}

#[test]
fn t03_further_labels_see_the_cells_that_the_move_left() {
    let mut table = Pair::with(6, &["a"]);
    assert_eq!(table.insert("aa", 2), done(1));
    let after = Pair::new([5, 1, -2, 3, -1, 1], [-6, 1, 5, 1, 3, 3]);
    assert_eq!(table, after);
}

#[test]
fn t04_the_moving_children_hold_their_cells() {
    // Below a, base 3 would be clear but for the cell 5 that a's own end mark holds.
    let used = [(1, 1, 1), (2, 6, -2), (3, 1, 4), (5, 3, -1), (6, 3, 1)];
    let mut table = Pair::sound(9, 6, &used);
    let before = table.clone();
    assert_eq!(table.compact(5), done(0));
    assert_eq!(table, before);
}

#[test]
fn t05_a_later_label_without_room_leaves_nothing_moved() {
    let mut table = Pair::with(6, &["a"]);
    assert_eq!(table.insert("aaa", 2), refused(NO_ROOM));
    assert_eq!(table, Pair::with(6, &["a"]));
}

#[test]
fn t06_the_search_knows_no_last_cell() {
    assert_eq!(placed_base(&[1, 38], |cell| (1..=9).contains(&cell)), 9);
    assert_eq!(Pair::fresh(2).insert("a", 1), refused(NO_ROOM));
}

#[test]
fn t07_the_node_where_the_walk_stopped_moves_not_the_owner_of_the_cell() {
    // For ad, a's base 1 leads to cell 6, which is the one child of ac.
    let mut table = Pair::with(12, &["ab", "ac"]);
    assert_eq!((table.base[3], table.check[6]), (1, 5));
    assert_eq!(table.insert("ad", 3), done(2));
    let base = [9, 1, -1, 4, -3, 0, -2, 1, 5, 3, 0, 0];
    let check = [-5, 1, 7, 1, 9, -10, 8, 3, 3, 3, 0, 0];
    assert_eq!(table, Pair::new(base, check));
}

#[test]
fn t08_the_roots_first_child_is_at_1_plus_its_code_or_there_is_no_room() {
    let mut table = Pair::fresh(40);
    assert_eq!(table.insert("-", 1), done(0));
    assert_eq!((table.base[1], table.check[39]), (1, 1));
    assert_eq!(Pair::fresh(39).insert("-", 1), refused(NO_ROOM));
}

#[test]
fn t09_the_count_is_of_the_children_that_moved() {
    assert_eq!(p2().insert("a", 9), done(1));
    assert_eq!(Pair::with(12, &["ab", "ac"]).insert("ad", 3), done(2));
    assert_eq!(p1().insert("a", 9), done(0));
}

#[test]
fn t10_the_size_never_falls_in_an_insert() {
    let used = [(1, 1, 1), (2, 12, -7), (3, 1, 9), (12, 3, 1)];
    let mut table = Pair::sound(13, 12, &used);
    assert_eq!(table.insert("ac", 8), done(1));
    let moved = [(1, 1, 1), (2, 4, -7), (3, 1, 1), (4, 3, 1), (5, 3, 5), (6, 5, -8)];
    assert_eq!(table, Pair::sound(13, 12, &moved));
}

#[test]
fn t11_bases_start_at_1_past_the_chain_too() {
    let mut table = Pair::fresh(60);
    assert_eq!(table.insert("a-", 4), done(0));
    let used = [(1, 1, 1), (2, 39, -4), (3, 1, 1), (39, 3, 1)];
    assert_eq!(table, Pair::sound(60, 39, &used));
}

#[test]
fn t12_every_cell_of_a_placement_has_to_be_unused() {
    // This program has no chain to search along; its search asks only which cells are used.
    let used = |cell| [1, 2, 4, 5, 7].contains(&cell);
    assert_eq!(placed_base(&[2], used), 1);
    assert_eq!(placed_base(&[2, 3], used), 6);
    assert_eq!(placed_base(&[2, 5], used), 1);
    assert_eq!(placed_base(&[2, 4, 5], used), 4);
}

/// Three identifiers a, b and c, the leaves of a and b far up.
fn high_leaves() -> Pair {
    let nodes = [(1, 1, 1), (3, 1, 20), (4, 1, 24), (5, 1, 1)];
    let leaves = [(2, 5, -30), (21, 3, -10), (25, 4, -20)];
    Pair::sound(30, 28, &[&nodes[..], &leaves].concat())
}

#[test]
fn t13_a_delete_runs_one_step_and_answers_the_row() {
    let mut table = high_leaves();
    assert_eq!(table.delete("c"), done(30));
    let used = [(1, 1, 1), (2, 4, -20), (3, 1, 20), (4, 1, 1), (21, 3, -10)];
    assert_eq!(table, Pair::sound(30, 21, &used));
    assert_eq!(table.compact(9), done(1));
    let used = [(1, 1, 1), (2, 4, -20), (3, 1, 4), (4, 1, 1), (5, 3, -10)];
    assert_eq!(table, Pair::sound(30, 5, &used));
}

#[test]
fn t14_every_step_trims_and_compact_0_too() {
    let mut table = high_leaves();
    assert_eq!((table.compact(0), table.size()), (done(0), 25));
    let idle = [(1, 1, 1), (2, 3, -5), (3, 1, 1)];
    for n in [0, 1, 65_535] {
        let mut table = Pair::sound(9, 8, &idle);
        assert_eq!(table.compact(n), done(0));
        assert_eq!(table, Pair::sound(9, 3, &idle));
    }
    let mut only_root = Pair::sound(9, 8, &idle[..1]);
    assert_eq!((only_root.compact(0), only_root), (done(0), p1()));
    let mut table = Pair::sound(9, 8, &idle);
    assert_eq!((table.delete("a"), table), (done(5), p1()));
}

#[test]
fn t15_a_step_looks_at_one_parent_alone() {
    // The root's child in cell 39 cannot move; a's leaf in cell 10 could, and stays.
    let used = [(1, 1, 1), (3, 1, 9), (4, 39, -2), (10, 3, -1), (39, 1, 3)];
    let mut table = Pair::sound(50, 39, &used);
    assert_eq!(table.compact(5), done(0));
    assert_eq!(table, Pair::sound(50, 39, &used));
}

#[test]
fn t16_a_move_counts_once_however_many_children() {
    let nodes = [(1, 1, 1), (3, 1, 20), (22, 3, 1), (23, 3, 4), (24, 3, 3)];
    let leaves = [(2, 22, -1), (4, 24, -3), (5, 23, -2)];
    let mut table = Pair::sound(30, 24, &[&nodes[..], &leaves].concat());
    assert_eq!(table.compact(1), done(1));
    assert_eq!((table.base[3], table.size()), (4, 8));
    assert_eq!(table.compact(1), done(0));
    for (key, row) in [("aa", 1), ("ab", 2), ("ac", 3)] {
        assert_eq!(table.find(key), done(row));
    }
}

#[test]
fn t17_the_root_is_never_freed_and_gets_base_1_back() {
    let mut table = Pair::sound(9, 8, &[(1, 1, 5), (2, 7, -4), (7, 1, 1)]);
    assert_eq!((table.delete("a"), table), (done(4), p1()));
}

#[test]
fn t18_after_n_moves_there_is_no_further_step() {
    let mut table = high_leaves();
    assert_eq!((table.compact(1), table.size()), (done(1), 21));
    assert_eq!((table.compact(1), table.size()), (done(1), 7));
    assert_eq!((table.compact(1), table.size()), (done(0), 7));
    assert_eq!(high_leaves().compact(2), done(2));
    assert_eq!(high_leaves().compact(3), done(2));
}

// T19 to T22 have more cases in the module `audit`.

#[test]
fn t19_extreme_values_and_rings_are_met_safely() {
    let high = p3().changed(&[('b', 3, i32::MAX)]);
    assert_eq!((high.find("a"), high.audit()), (refused(ABSENT), refused(DAMAGED)));
    let low = p3().changed(&[('b', 5, i32::MIN)]);
    assert_eq!((low.find("a"), low.audit()), (refused(ABSENT), refused(DAMAGED)));
    let far = p3().changed(&[('c', 5, i32::MAX)]);
    assert_eq!((far.find("a"), far.audit()), (refused(ABSENT), refused(DAMAGED)));
    let ring = Pair::built(20, 12, &[(1, 1, 1), (10, 12, 9), (12, 10, 6)]);
    assert_eq!(ring.audit(), refused(DAMAGED));
}

#[test]
fn t20_a_parent_is_a_used_cell_within_the_size() {
    for parent in [4, 8, 9, 2, 5] {
        assert_eq!(p3().changed(&[('c', 5, parent)]).audit(), refused(DAMAGED));
    }
}

#[test]
fn t21_a_leaf_directly_under_the_root_is_unsound() {
    let table = Pair::built(9, 2, &[(1, 1, 1), (2, 1, -5)]);
    assert_eq!(table.audit(), refused(DAMAGED));
}

#[test]
fn t22_a_chain_that_skips_a_free_cell_is_unsound() {
    assert_eq!(p3().changed(&[('c', 0, -6)]).audit(), refused(DAMAGED));
    assert_eq!(p3().changed(&[('c', 4, -8)]).audit(), refused(DAMAGED));
}

#[test]
fn t23_find_trusts_nothing_and_does_not_read_the_size() {
    let rows = [(-1, done(1)), (-1_000_000, done(1_000_000)), (-1_000_001, refused(ABSENT))];
    for (base, answer) in rows {
        assert_eq!(p3().changed(&[('b', 5, base)]).find("a"), answer);
    }
    for size in EXTREMES {
        assert_eq!(p3().changed(&[('b', 0, size)]).find("ab"), done(7));
    }
    let last = Pair::built(4, 1, &[(1, 1, 1), (3, 1, 1), (2, 3, -6)]);
    assert_eq!(last.find("a"), done(6));
}

#[test]
fn t26_line_before_key_before_number_before_present() {
    assert_eq!(p3().answer(line(2, b"A", 1)), refused(LINE));
    assert_eq!(p3().answer(line(4, b"a", 70_000)), refused(LINE));
    assert_eq!(p3().answer(line(1, b"A", 0)), refused(KEY));
    assert_eq!(p3().answer(line(1, b"a", 0)), refused(NUMBER));
}

#[test]
fn t27_damaged_comes_last_in_single_calls_and_first_in_runs() {
    let mut damaged = p3().changed(&[('c', 0, 0)]);
    assert_eq!(damaged.insert("A", 1), refused(KEY));
    assert_eq!(damaged.insert("a", 0), refused(NUMBER));
    assert_eq!(damaged.compact(65_536), refused(NUMBER));
    assert_eq!(damaged.run(&line(1, b"A", 1), &mut []), refused(DAMAGED));
    assert_eq!(damaged.run(b"", &mut []), refused(DAMAGED));
    assert_eq!(damaged.list(&mut []), refused(DAMAGED));
}

#[test]
fn t28_lines_and_their_lengths() {
    let longest = line(1, &[b'a'; 255], 1);
    assert_eq!(longest.len(), 522);
    assert_eq!(p3().answer(&longest), refused(KEY));
    assert_eq!(p3().answer([&longest[..], b"\n"].concat()), refused(KEY));
    for more in [1, 2, 5_000] {
        let longer = [&longest[..], &b"0".repeat(more)].concat();
        assert_eq!(p3().answer(longer), refused(LINE));
    }
    let find = String::from_utf8(line(3, b"a", 0)).unwrap();
    assert_eq!(p3().answer(format!("{find}\r\n")), refused(LINE));
    let upper = line(1, b"no", 10).to_ascii_uppercase();
    assert_eq!(p3().answer(upper), refused(LINE));
    assert_eq!(p3().answers(""), "");
    assert_eq!(p3().answers("\n\n"), "0900000000\n".repeat(2));
    assert_eq!(p3().answers(format!("{find}\n{find}")), "0000000009\n".repeat(2));
    assert_eq!(p3().answers(format!("\n{find}\n")), "0900000000\n0000000009\n");
}

#[test]
fn t29_numbers_go_up_to_ffffffff() {
    for number in [0x7fff_ffff, 0x8000_0000, 0xffff_ffff] {
        assert_eq!(p3().answer(line(1, b"b", number)), refused(NUMBER));
        assert_eq!(p3().answer(line(4, b"", number)), refused(NUMBER));
        assert_eq!(p3().answer(line(2, b"a", number)), refused(LINE));
    }
}

#[test]
fn t30_a_run_is_refused_as_a_whole_and_counts_refused_lines() {
    let sheet = [line(2, b"a", 0), vec![], line(2, b"b", 0)].join(&b'\n');
    assert_eq!(p3().run(&sheet, &mut [b'#'; 32]), refused(NO_SPACE));
    let mut out = [b'#'; 34];
    assert_eq!(p3().run(&sheet, &mut out), done(3));
    assert_eq!(&out, b"0000000009\n0900000000\n0600000000\n#");
    assert_eq!(p3().answer(line(1, b"ab", 3)).value, 7);
}
