//! The audit: rules 1 to 7 of a sound table, each in the words of document 01. The arrays may
//! hold anything, so all numbers are taken as 64-bit ones and a cell number is used as an
//! index only when an earlier rule has put it in range.

use crate::text::{END_MARK, GREATEST_CODE};
use crate::GREATEST_ROW;

struct Arrays {
    base: Vec<i64>,
    check: Vec<i64>,
    size: usize,
}

/// Whether arrays of right lengths hold a sound table.
pub fn sound(base: &[i32], check: &[i32]) -> bool {
    let wide = |array: &[i32]| array.iter().map(|&element| element.into()).collect();
    let mut arrays = Arrays { base: wide(base), check: wide(check), size: 0 };
    arrays.rule_1()
        && arrays.rule_2()
        && arrays.rule_3()
        && arrays.rule_4()
        && arrays.rule_5()
        && arrays.rule_6()
        && arrays.rule_7()
}

impl Arrays {
    /// The size is a cell, and every cell past it is 0 in both arrays.
    fn rule_1(&mut self) -> bool {
        let last_cell = self.base.len() - 1;
        if !(1..=last_cell as i64).contains(&self.base[0]) {
            return false;
        }
        self.size = self.base[0] as usize;
        (self.size + 1..=last_cell).all(|cell| self.base[cell] == 0 && self.check[cell] == 0)
    }

    /// Each cell up to the size is used or free, and a free one has base 0.
    fn rule_2(&self) -> bool {
        (1..=self.size).all(|cell| match self.check[cell] {
            0 => false,
            1.. => true,
            _ => self.base[cell] == 0,
        })
    }

    /// The chain names every free cell, each by the one before it, and ends at size + 1.
    fn rule_3(&self) -> bool {
        let mut holder = 0;
        for cell in (1..=self.size).filter(|&cell| self.check[cell] < 0) {
            if self.check[holder] != -(cell as i64) {
                return false;
            }
            holder = cell;
        }
        self.check[holder] == -(self.size as i64 + 1)
    }

    /// Cell 1 is the root, with base 1 if it has no children.
    fn rule_4(&self) -> bool {
        let has_children = self.used_but_the_root().any(|cell| self.check[cell] == 1);
        self.check[1] == 1 && self.base[1] >= 1 && (has_children || self.base[1] == 1)
    }

    /// Every other used cell has a parent, and a code from 1 to 38 there.
    fn rule_5(&self) -> bool {
        self.used_but_the_root().all(|cell| {
            let parent = self.check[cell];
            (1..=self.size as i64).contains(&parent)
                && self.check[parent as usize] >= 1
                && parent != cell as i64
                && self.base[parent as usize] >= 1
                && (1..=GREATEST_CODE as i64).contains(&self.code(cell))
        })
    }

    /// Leaves hold rows; every other used cell but the root has a base and a child.
    fn rule_6(&self) -> bool {
        let mut has_child = vec![false; self.size + 1];
        for cell in self.used_but_the_root() {
            has_child[self.parent(cell)] = true;
        }
        self.used_but_the_root().all(|cell| {
            if self.is_leaf(cell) {
                (1..=i64::from(GREATEST_ROW)).contains(&-self.base[cell])
            } else {
                self.base[cell] >= 1 && has_child[cell]
            }
        })
    }

    /// The way up ends at the root, for a leaf in 2 to 33 steps. Leaves go first: once they
    /// are right, no way up that ends is long, so the whole stays quick.
    fn rule_7(&self) -> bool {
        let mut leaves = self.used_but_the_root().filter(|&cell| self.is_leaf(cell));
        let right = |steps: usize| (2..=33).contains(&steps);
        leaves.all(|leaf| self.steps_to_root(leaf).is_some_and(right))
            && self.used_but_the_root().all(|cell| self.steps_to_root(cell).is_some())
    }

    /// A way of more steps than there are cells has met a cell twice and never ends.
    fn steps_to_root(&self, mut cell: usize) -> Option<usize> {
        for steps in 0..=self.size {
            if cell == 1 {
                return Some(steps);
            }
            cell = self.parent(cell);
        }
        None
    }

    fn used_but_the_root(&self) -> impl Iterator<Item = usize> + '_ {
        (2..=self.size).filter(|&cell| self.check[cell] >= 1)
    }

    fn parent(&self, cell: usize) -> usize {
        self.check[cell] as usize
    }

    fn code(&self, cell: usize) -> i64 {
        cell as i64 - self.base[self.parent(cell)]
    }

    fn is_leaf(&self, cell: usize) -> bool {
        self.code(cell) == END_MARK as i64
    }
}
