//! Every pair of arrays of a small length over a few values. The values are chosen so that sound
//! tables occur: empty ones at every length, and at length 4 one that holds a with row 2.

use super::Writer;

pub fn write(w: &mut Writer) {
    let two = [1, -2, 0, 2, i32::MIN, i32::MAX, i32::MIN + 1, -1, -3, 3, -1_000_000];
    let three = [1, -2, 0, 2, -3, i32::MIN, i32::MAX];
    for (length, values) in [(2, &two[..w.many(11, 5)]), (3, &three[..w.many(7, 4)])] {
        w.title(format!("every pair of length {length} over {} values", values.len()));
        w.every(length, values);
    }
    if w.many(4, 0) == 4 {
        w.title("every pair of length 4 over 6 values");
        w.every(4, &[-4, -3, -2, 0, 1, 3]);
    }
}
