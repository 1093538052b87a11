//! Arrays written by hand: the tables of document 01's figures, and tables built from their used
//! cells. The tests and the cases for the proved library both start from them.

/// The elements of base and those of check.
pub type Arrays = (Vec<i32>, Vec<i32>);

/// The same, of the figures' length.
pub type Figure = ([i32; 9], [i32; 9]);

pub const P1: Figure = ([1, 1, 0, 0, 0, 0, 0, 0, 0], [-2, 1, 0, 0, 0, 0, 0, 0, 0]);
pub const P2: Figure = ([4, 1, -7, 1, 1, 0, 0, 0, 0], [-5, 1, 4, 1, 3, 0, 0, 0, 0]);
pub const P3: Figure = ([7, 1, -7, 4, 0, -9, 0, 1, 0], [-4, 1, 7, 1, -6, 3, -8, 3, 0]);
pub const P4: Figure = ([6, 1, -7, 3, -9, 0, 1, 0, 0], [-5, 1, 6, 1, 3, -7, 3, 0, 0]);
pub const P5: Figure = ([3, 1, -9, 1, 0, 0, 0, 0, 0], [-4, 1, 3, 1, 0, 0, 0, 0, 0]);
pub const FIGURES: [Figure; 5] = [P1, P2, P3, P4, P5];

/// An empty table.
pub fn empty(length: usize) -> Arrays {
    built(length, 1, &[(1, 1, 1)])
}

/// A table from its used cells (cell, parent, base); the chain is laid through the rest.
pub fn built(length: usize, size: usize, used: &[(usize, i32, i32)]) -> Arrays {
    let (mut base, mut check) = (vec![0; length], vec![0; length]);
    for &(cell, parent, held) in used {
        (base[cell], check[cell]) = (held, parent);
    }
    let mut last_link = 0;
    for cell in (1..=size).filter(|cell| used.iter().all(|(other, ..)| other != cell)) {
        check[last_link] = -(cell as i32);
        last_link = cell;
    }
    check[last_link] = -(size as i32 + 1);
    base[0] = size as i32;
    (base, check)
}

/// Two cells that are each other's parent, a cell that is its own, a leaf right below the root.
pub fn unsound() -> [Arrays; 3] {
    [
        built(9, 6, &[(1, 1, 1), (5, 6, 4), (6, 5, 3)]),
        built(9, 5, &[(1, 1, 1), (5, 5, 3)]),
        built(9, 2, &[(1, 1, 1), (2, 1, -5)]),
    ]
}

/// One identifier of so many times the letter a, in cells 3, 4, 5 and upward, and its leaf in the
/// cell after the last. Its row is that number.
pub fn ladder(letters: usize) -> Arrays {
    let leaf = letters + 3;
    let mut used = vec![(1, 1, 1), (3, 1, 2)];
    used.extend((4..leaf).map(|cell| (cell, cell as i32 - 1, cell as i32 - 1)));
    // The last letter's label below is the end mark, whose code is one less than that of a.
    used[letters].2 = leaf as i32 - 1;
    used.push((leaf, leaf as i32 - 1, -(letters as i32)));
    built(leaf + 4, leaf, &used)
}
