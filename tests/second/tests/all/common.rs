//! What the tests share: a pair of arrays that watches its own calls, tables built by hand,
//! and short ways to write answers.

use second::*;

pub const EXTREMES: [i32; 8] = [i32::MIN, i32::MIN + 1, -2, -1, 0, 1, i32::MAX - 1, i32::MAX];

pub fn done(value: u32) -> Answer {
    Answer { number: DONE, value }
}

pub fn refused(number: u8) -> Answer {
    Answer { number, value: 0 }
}

/// Two arrays. Every call made through it is watched: a refused one has to leave every element
/// of both arrays and every byte of the buffer as it was.
#[derive(Clone, Debug, PartialEq)]
pub struct Pair {
    pub base: Vec<i32>,
    pub check: Vec<i32>,
}

impl Pair {
    /// A fresh table; the arrays hold other things before, for fresh asks nothing of them.
    pub fn fresh(length: usize) -> Pair {
        let mut pair = Pair::new(vec![-77; length], vec![i32::MIN; length]);
        assert_eq!(fresh(&mut pair.base, &mut pair.check), done(0));
        pair
    }

    pub fn new(base: impl Into<Vec<i32>>, check: impl Into<Vec<i32>>) -> Pair {
        let (base, check) = (base.into(), check.into());
        Pair { base, check }
    }

    /// A table from its used cells (cell, parent, base), sound or not.
    pub fn built(length: usize, size: usize, used: &[(usize, i32, i32)]) -> Pair {
        let (base, check) = arrays::built(length, size, used);
        Pair { base, check }
    }

    /// A built table, which has to be sound.
    pub fn sound(length: usize, size: usize, used: &[(usize, i32, i32)]) -> Pair {
        let pair = Pair::built(length, size, used);
        assert_eq!(pair.audit(), done(0), "{pair:?}");
        pair
    }

    /// A fresh table with these identifiers inserted, their rows 1, 2, 3 and upward.
    pub fn with(length: usize, keys: &[&str]) -> Pair {
        let mut pair = Pair::fresh(length);
        for (row, key) in (1..).zip(keys) {
            assert_eq!(pair.insert(key, row).number, DONE);
        }
        pair
    }

    fn watch(&mut self, call: impl FnOnce(&mut Pair) -> Answer) -> Answer {
        let before = self.clone();
        let answer = call(self);
        assert!(answer.number == DONE || *self == before, "{answer:?}");
        answer
    }

    pub fn insert(&mut self, key: impl AsRef<[u8]>, row: u32) -> Answer {
        self.watch(|pair| insert(&mut pair.base, &mut pair.check, key.as_ref(), row))
    }

    pub fn delete(&mut self, key: impl AsRef<[u8]>) -> Answer {
        self.watch(|pair| delete(&mut pair.base, &mut pair.check, key.as_ref()))
    }

    pub fn compact(&mut self, n: u32) -> Answer {
        self.watch(|pair| compact(&mut pair.base, &mut pair.check, n))
    }

    pub fn find(&self, key: impl AsRef<[u8]>) -> Answer {
        find(&self.base, &self.check, key.as_ref())
    }

    pub fn audit(&self) -> Answer {
        audit(&self.base, &self.check)
    }

    pub fn list(&self, out: &mut [u8]) -> Answer {
        let before = out.to_vec();
        let answer = list(&self.base, &self.check, out);
        assert!(answer.number == DONE || *out == before);
        answer
    }

    pub fn run(&mut self, sheet: &[u8], out: &mut [u8]) -> Answer {
        let before = out.to_vec();
        let answer = self.watch(|pair| run(&mut pair.base, &mut pair.check, sheet, out));
        assert!(answer.number == DONE || *out == before);
        answer
    }

    /// The listing as text, from a buffer that is longer.
    pub fn listing(&self) -> String {
        let mut out = vec![b'#'; 80 * self.base.len()];
        let answer = self.list(&mut out);
        assert_eq!(answer.number, DONE);
        let (written, rest) = out.split_at(answer.value as usize);
        assert!(rest.iter().all(|&byte| byte == b'#'));
        String::from_utf8_lossy(written).into_owned()
    }

    /// The answers to a sheet as text, from a buffer that is longer.
    pub fn answers(&mut self, sheet: impl AsRef<[u8]>) -> String {
        let mut out = vec![b'#'; 11 * sheet.as_ref().len() + 11];
        let answer = self.run(sheet.as_ref(), &mut out);
        assert_eq!(answer.number, DONE);
        let (written, rest) = out.split_at(11 * answer.value as usize);
        assert!(rest.iter().all(|&byte| byte == b'#'));
        String::from_utf8_lossy(written).into_owned()
    }

    /// The answer to a single line.
    pub fn answer(&mut self, line: impl AsRef<[u8]>) -> Answer {
        let text = self.answers(line);
        assert_eq!((text.len(), text.as_bytes()[10]), (11, b'\n'));
        Answer {
            number: u8::from_str_radix(&text[..2], 16).unwrap(),
            value: u32::from_str_radix(&text[2..10], 16).unwrap(),
        }
    }

    pub fn size(&self) -> usize {
        self.base[0] as usize
    }

    pub fn largest_used(&self) -> usize {
        self.check.iter().rposition(|&link| link >= 1).unwrap()
    }

    /// The table with elements of base or check changed.
    pub fn changed(&self, changes: &[(char, usize, i32)]) -> Pair {
        let mut pair = self.clone();
        for &(array, element, value) in changes {
            match array {
                'b' => pair.base[element] = value,
                _ => pair.check[element] = value,
            }
        }
        pair
    }
}
