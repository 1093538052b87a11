//! The used cells of a sound table and what insertion, deletion and compaction do to them.
//! There is no chain here: free cells are those that are not used, a placed base is found by
//! trying 1, 2, 3 and upward, and writing computes the chain and the zeros from the used cells.

use crate::text::GREATEST_CODE;
use crate::{refusal, Answer, Outcome, ABSENT, NO_ROOM, PRESENT};

pub(crate) const ROOT: usize = 1;

/// What a used cell holds: a leaf its row, any other cell its base.
#[derive(Clone, Copy)]
enum Held {
    Base(usize),
    Row(u32),
}

/// A used cell. The root counts as its own parent, as in check.
#[derive(Clone, Copy)]
struct Used {
    parent: usize,
    held: Held,
}

pub struct Table {
    /// One place for each element of the arrays. Place 0 is the header's and never used.
    cells: Vec<Option<Used>>,
    size: usize,
}

/// The smallest q of 1 or more for which every q + code is unused.
pub fn placed_base(codes: &[usize], used: impl Fn(usize) -> bool) -> usize {
    let mut q = 1;
    while codes.iter().any(|code| used(q + code)) {
        q += 1;
    }
    q
}

impl Table {
    pub fn fresh(length: usize) -> Table {
        let mut cells = vec![None; length];
        cells[ROOT] = Some(Used { parent: ROOT, held: Held::Base(1) });
        Table { cells, size: ROOT }
    }

    /// Reads the used cells out of arrays that have passed the audit.
    pub fn read(base: &[i32], check: &[i32]) -> Table {
        let cell = |(&base, &check): (&i32, &i32)| {
            let held = match base {
                1.. => Held::Base(base as usize),
                _ => Held::Row(base.unsigned_abs()),
            };
            let parent = check as usize;
            (check >= 1).then_some(Used { parent, held })
        };
        let mut cells: Vec<_> = base.iter().zip(check).map(cell).collect();
        cells[0] = None;
        let size = base[0] as usize;
        Table { cells, size }
    }

    /// Writes every element of both arrays.
    pub fn write(&self, base: &mut [i32], check: &mut [i32]) {
        let mut next_free = self.size + 1;
        for cell in (1..self.cells.len()).rev() {
            (base[cell], check[cell]) = match self.cells[cell] {
                Some(used) => (used.held.element(), used.parent as i32),
                None if cell > self.size => (0, 0),
                None => (0, -(std::mem::replace(&mut next_free, cell) as i32)),
            };
        }
        (base[0], check[0]) = (self.size as i32, -(next_free as i32));
    }

    /// Every identifier's labels with its row, in order of label codes.
    pub fn entries(&self) -> Vec<(Vec<usize>, u32)> {
        let cells = 1..self.cells.len();
        let mut entries: Vec<_> = cells
            .filter_map(|cell| Some((cell, self.row(cell)?)))
            .map(|(cell, row)| (self.labels_down_to(cell), row))
            .collect();
        entries.sort();
        entries
    }

    pub fn insert(&mut self, labels: &[usize], row: u32) -> Outcome {
        let (mut cell, rest) = self.walk(labels);
        let Some((&label, further)) = rest.split_first() else {
            return Err(Answer { number: PRESENT, value: self.row(cell).unwrap_or(0) });
        };
        let moved = self.make_way(cell, label)?;
        cell = self.hold_below(cell, label);
        for &label in further {
            let q = self.fitting_base(&[label])?;
            self.set(cell, Held::Base(q));
            cell = self.hold_below(cell, label);
        }
        self.set(cell, Held::Row(row));
        self.size = self.size.max(self.largest_used());
        Ok(moved)
    }

    pub fn delete(&mut self, labels: &[usize]) -> Outcome {
        let (mut cell, rest) = self.walk(labels);
        let row = match self.row(cell) {
            Some(row) if rest.is_empty() => row,
            _ => return Err(refusal(ABSENT)),
        };
        while cell != ROOT && self.children(cell).is_empty() {
            cell = self.cells[cell].take().map_or(ROOT, |used| used.parent);
        }
        if self.children(ROOT).is_empty() {
            self.set(ROOT, Held::Base(1));
        }
        self.step();
        Ok(row)
    }

    pub fn compact(&mut self, n: u32) -> u32 {
        self.size = self.largest_used();
        let mut moves = 0;
        while moves < n && self.step() {
            moves += 1;
        }
        moves
    }

    /// One compaction step; says whether it moved. In every case it trims.
    fn step(&mut self) -> bool {
        let largest = self.largest_used();
        let moves = largest != ROOT && self.lower_family(largest);
        self.size = self.largest_used();
        moves
    }

    /// Moves a cell and its parent's other children to a smaller base, if there is one.
    fn lower_family(&mut self, cell: usize) -> bool {
        let parent = self.parent(cell).unwrap_or(ROOT);
        let q = self.placed(&self.children(parent));
        let smaller = q < self.base(parent);
        if smaller {
            self.move_children(parent, q);
        }
        smaller
    }

    /// Sees to it that the label's cell below this one can be used: if it is used or past the
    /// last cell, the children move. Gives the number that moved.
    fn make_way(&mut self, cell: usize, label: usize) -> Outcome {
        let wanted = self.base(cell) + label;
        if wanted < self.cells.len() && !self.is_used(wanted) {
            return Ok(0);
        }
        let children = self.children(cell);
        let q = self.fitting_base(&[&children[..], &[label]].concat())?;
        self.move_children(cell, q);
        Ok(children.len() as u32)
    }

    /// Moves the children of a cell to the unused cells that the new base leads to.
    fn move_children(&mut self, cell: usize, q: usize) {
        for code in self.children(cell) {
            let (old, new) = (self.base(cell) + code, q + code);
            for grandchild in self.children(old) {
                let below = self.base(old) + grandchild;
                self.change(below, |used| used.parent = new);
            }
            self.cells[new] = self.cells[old].take();
        }
        self.set(cell, Held::Base(q));
    }

    fn placed(&self, codes: &[usize]) -> usize {
        placed_base(codes, |cell| self.is_used(cell))
    }

    /// The placed base, or NO ROOM if it does not fit.
    fn fitting_base(&self, codes: &[usize]) -> Result<usize, Answer> {
        let q = self.placed(codes);
        let fits = codes.iter().all(|code| q + code < self.cells.len());
        fits.then_some(q).ok_or(refusal(NO_ROOM))
    }

    /// The cell at which the walk stops and the labels that are left there.
    fn walk<'a>(&self, mut labels: &'a [usize]) -> (usize, &'a [usize]) {
        let mut cell = ROOT;
        while let Some((below, rest)) = self.go_on(cell, labels) {
            (cell, labels) = (below, rest);
        }
        (cell, labels)
    }

    fn go_on<'a>(&self, cell: usize, labels: &'a [usize]) -> Option<(usize, &'a [usize])> {
        let (label, rest) = labels.split_first()?;
        let below = self.base(cell) + label;
        (self.parent(below)? == cell).then_some((below, rest))
    }

    /// The labels on the way from the root to a used cell.
    pub fn labels_down_to(&self, mut cell: usize) -> Vec<usize> {
        let mut labels = Vec::new();
        while let (Some(parent), true) = (self.parent(cell), cell != ROOT) {
            labels.push(cell - self.base(parent));
            cell = parent;
        }
        labels.reverse();
        labels
    }

    /// The codes of a cell's children. A leaf has none: no cell has it for its parent.
    fn children(&self, cell: usize) -> Vec<usize> {
        let is_child = |code: &usize| self.parent(self.base(cell) + code) == Some(cell);
        (1..=GREATEST_CODE).filter(is_child).collect()
    }

    fn used(&self, cell: usize) -> Option<Used> {
        self.cells.get(cell).copied().flatten()
    }

    fn is_used(&self, cell: usize) -> bool {
        self.used(cell).is_some()
    }

    fn parent(&self, cell: usize) -> Option<usize> {
        self.used(cell).map(|used| used.parent)
    }

    /// The base held; 0 at a leaf and at a cell that is not used.
    fn base(&self, cell: usize) -> usize {
        match self.used(cell) {
            Some(Used { held: Held::Base(base), .. }) => base,
            _ => 0,
        }
    }

    fn row(&self, cell: usize) -> Option<u32> {
        match self.used(cell)?.held {
            Held::Row(row) => Some(row),
            Held::Base(_) => None,
        }
    }

    /// The root is always used, so there is a largest used cell.
    fn largest_used(&self) -> usize {
        let used = self.cells.iter().rposition(|cell| cell.is_some());
        used.unwrap_or(ROOT)
    }

    /// Makes the label's cell below this one used and gives it. It holds a row of 0 until the
    /// caller says what it holds: nothing looks at it in between but to see that it is used.
    fn hold_below(&mut self, cell: usize, label: usize) -> usize {
        let below = self.base(cell) + label;
        self.cells[below] = Some(Used { parent: cell, held: Held::Row(0) });
        below
    }

    fn set(&mut self, cell: usize, held: Held) {
        self.change(cell, |used| used.held = held);
    }

    fn change(&mut self, cell: usize, how: impl FnOnce(&mut Used)) {
        if let Some(used) = &mut self.cells[cell] {
            how(used);
        }
    }
}

impl Held {
    /// The element of base that stands for it.
    fn element(self) -> i32 {
        match self {
            Held::Base(base) => base as i32,
            Held::Row(row) => -(row as i32),
        }
    }
}
