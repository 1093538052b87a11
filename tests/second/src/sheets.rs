//! A generator of sheets. The same seed, number of lines and kind always give the same sheet.
//! It keeps a table of run_sheet's length beside the sheet, so that it knows which identifiers
//! are live and when the table is full. An odd seed leaves the final line feed out.

use crate::table::Table;
use crate::text::{counted, identifier, CHARACTERS, GREATEST_CODE};
use crate::{answer_line, fresh, Answer, DONE, NO_ROOM};

/// The length of run_sheet's arrays.
const LENGTH: usize = 4_096;

/// A kind's name and the function that writes its next line.
type Kind = (&'static str, fn(&mut Writer));

pub const KINDS: [Kind; 5] = [
    ("mixed", Writer::mixed),
    ("churn", Writer::churn),
    ("full", Writer::full),
    ("refusals", Writer::refusals),
    ("limits", Writer::limits),
];

/// The sheet, or none if there is no such kind.
pub fn sheet(seed: u64, lines: usize, kind: &str) -> Option<Vec<u8>> {
    let (_, next_line) = KINDS.iter().find(|(name, _)| *name == kind)?;
    let mut writer = Writer::new(seed);
    for _ in 0..lines {
        next_line(&mut writer);
    }
    // Without its line feed a blank last line would be no line at all.
    if seed % 2 == 1 && !writer.sheet.ends_with(b"\n\n") && writer.sheet != b"\n" {
        writer.sheet.pop();
    }
    Some(writer.sheet)
}

/// The random numbers of splitmix64.
pub struct Random(u64);

impl Random {
    pub fn new(seed: u64) -> Random {
        Random(seed)
    }

    pub fn draw(&mut self) -> u64 {
        self.0 = self.0.wrapping_add(0x9e37_79b9_7f4a_7c15);
        let z = (self.0 ^ (self.0 >> 30)).wrapping_mul(0xbf58_476d_1ce4_e5b9);
        let z = (z ^ (z >> 27)).wrapping_mul(0x94d0_49bb_1331_11eb);
        z ^ (z >> 31)
    }

    pub fn below(&mut self, bound: usize) -> usize {
        (self.draw() % bound.max(1) as u64) as usize
    }

    pub fn chance(&mut self, percent: usize) -> bool {
        self.below(100) < percent
    }

    pub fn pick<T: Copy>(&mut self, from: &[T]) -> T {
        from[self.below(from.len())]
    }

    /// A row in range, small ones and the greatest among them.
    pub fn row(&mut self) -> u32 {
        let any = self.below(1_000_000) as u32 + 1;
        self.pick(&[1, any % 50 + 1, any, any, 1_000_000])
    }

    pub fn word(&mut self, characters: &[u8], length: usize) -> Vec<u8> {
        (0..length).map(|_| self.pick(characters)).collect()
    }
}

pub struct Writer {
    random: Random,
    base: Vec<i32>,
    check: Vec<i32>,
    live: Vec<Vec<u8>>,
    filled: bool,
    sheet: Vec<u8>,
}

impl Writer {
    fn new(seed: u64) -> Writer {
        let (mut base, mut check) = (vec![0; LENGTH], vec![0; LENGTH]);
        fresh(&mut base, &mut check);
        Writer {
            random: Random::new(seed),
            base,
            check,
            live: Vec::new(),
            filled: false,
            sheet: Vec::new(),
        }
    }

    /// For everyday use: all four operations, identifiers of every shape, few refusals.
    fn mixed(&mut self) {
        let key = self.identifier();
        match self.random.below(20) {
            0..=9 => self.insert(key),
            10..=13 => self.delete_live(),
            14..=16 => self.find_live(),
            17 => self.absent(),
            18 => self.insert_live(),
            _ => self.compact(),
        }
    }

    /// For moves: a few short identifiers come and go over a small part of the alphabet, so
    /// that collisions, deletions that free several cells and compactions that move are many.
    fn churn(&mut self) {
        let length = self.random.below(5) + 1;
        let key = self.random.word(b"abcx9-", length);
        match self.random.below(10) {
            0..=4 => self.insert(key),
            5..=7 => self.delete_live(),
            8 => self.find_live(),
            _ => self.compact(),
        }
    }

    /// For NO ROOM: inserts until the table is full, then work near the full table;
    /// now and again it is filled anew, so that it is never far from full.
    fn full(&mut self) {
        if !self.filled {
            return self.fill();
        }
        self.filled = !self.random.chance(2);
        let key = self.identifier();
        match self.random.below(20) {
            0 => self.insert(key),
            1..=6 => self.fill(),
            7..=8 => self.branch_near_the_last_cell(),
            9..=15 => self.delete_live(),
            16 => self.find_live(),
            17 => self.insert_live(),
            _ => self.compact(),
        }
    }

    /// For refusals: every reason of LINE, KEY, NUMBER, PRESENT and ABSENT, and lines with two
    /// of them at once; some accepted lines between, so that there is something to refuse.
    fn refusals(&mut self) {
        let (key, row) = (self.identifier(), self.random.row());
        let good = line(1, &key, row);
        let live = self.a_live_one().unwrap_or(b"none".to_vec());
        let delete_or_find = self.random.pick(&[2, 3]);
        let unknown = self.random.pick(&[0, 5, 6, 0x10, 0x11, 0x40, 0xff]);
        let cut = self.random.below(good.len());
        let past = self.random.pick(&[1_000_001, 0x7fff_ffff, 0x8000_0000, 0xffff_ffff]);
        match self.random.below(24) {
            0 => self.put(b""),
            1 => self.put(&good[..cut]),
            2 => self.put(&[&good, &b"\r"[..]].concat()),
            3 => self.put(&line(1, b"no", 0xabc).to_ascii_uppercase()),
            4 => self.wrong_length(good),
            5 => self.wrong_byte(good),
            6 => self.put(&line(unknown, &key, 0)),
            7 => self.put(&line(delete_or_find, &key, row)),
            8 => self.put(&line(4, &key, 1)),
            9 => self.put(&line(delete_or_find, b"A", past)),
            10 => self.put(&line(4, b"a", past)),
            11 | 12 => self.wrong_key(row),
            13 => self.put(&line(1, b"A", 0)),
            14 => self.put(&line(1, &key, 0)),
            15 => self.put(&line(1, &key, past)),
            16 => self.put(&line(1, &live, past)),
            17 => self.put(&line(4, b"", past)),
            18 => self.insert_live(),
            19 | 20 => self.absent(),
            21 => self.compact(),
            _ => self.insert(key),
        }
    }

    /// For lines at limits: the longest lines and longer ones, identifiers of 31 to 33
    /// characters, numbers at every bound up to ffffffff, blank lines.
    fn limits(&mut self) {
        let operation = self.random.pick(&[1, 2, 3]);
        let length = self.random.pick(&[1, 31, 32, 32, 33]);
        let key = self.random.word(CHARACTERS, length);
        let rows = [0, 1, 999_999, 1_000_000, 1_000_001, 0x7fff_ffff, 0x8000_0000, 0xffff_ffff];
        let number = self.random.pick(&[&rows[..], &[65_535, 65_536]].concat());
        let row = if operation == 1 { number } else { 0 };
        let longest = line(operation, &[b'a'; 255], row);
        match self.random.below(8) {
            0 => self.put(&longest),
            1 => self.put(&[&longest, &b"0"[..]].concat()),
            2 => self.put(&longest[1..]),
            3 => self.put(&b"0".repeat(523 + length * length)),
            4 => self.put(b""),
            5 => self.put(&line(4, b"", number)),
            6 => self.put(&line(operation, &key, row)),
            _ => self.insert(key),
        }
    }

    /// An identifier: short, of middling length, of 32 characters, or one that shares its
    /// beginning with a live one.
    fn identifier(&mut self) -> Vec<u8> {
        let shared = match self.a_live_one() {
            Some(live) if self.random.chance(50) => live[..self.random.below(live.len())].to_vec(),
            _ => Vec::new(),
        };
        let middling = 4 + self.random.below(8);
        let short = 1 + self.random.below(3);
        let length = self.random.pick(&[short, short, middling, 32 - shared.len()]);
        let rest = self.random.word(CHARACTERS, length);
        let mut key = [shared, rest].concat();
        key.truncate(32);
        key
    }

    /// Inserts an identifier that branches off anywhere. Families stay small so, and small
    /// ones find room until nearly every cell is used.
    fn fill(&mut self) {
        let cell = self.random.below(LENGTH);
        let mut key = self.beginning(cell);
        let rest = 1 + self.random.below(32 - key.len());
        key.extend(self.random.word(CHARACTERS, rest));
        self.insert(key);
    }

    /// Inserts an identifier that branches off at the parent of a cell near the last one, by a
    /// label with a great code: its cell is then often past the last cell.
    fn branch_near_the_last_cell(&mut self) {
        let cell = LENGTH - 1 - self.random.below(GREATEST_CODE);
        let mut key = self.beginning(cell);
        key.push(self.random.pick(b"3456789-"));
        self.insert(key);
    }

    /// The characters on the way to a cell's parent, so many that at least one more can follow.
    fn beginning(&self, cell: usize) -> Vec<u8> {
        let mut labels = Table::read(&self.base, &self.check).labels_down_to(cell);
        labels.pop();
        labels.truncate(31);
        identifier(&labels)
    }

    fn a_live_one(&mut self) -> Option<Vec<u8>> {
        let place = self.random.below(self.live.len());
        self.live.get(place).cloned()
    }

    fn insert(&mut self, key: Vec<u8>) {
        let row = self.random.row();
        let answer = self.answer(&line(1, &key, row));
        self.filled |= answer.number == NO_ROOM;
        if answer.number == DONE {
            self.live.push(key);
        }
    }

    fn insert_live(&mut self) {
        let key = self.a_live_one().unwrap_or(b"first".to_vec());
        self.insert(key);
    }

    fn delete_live(&mut self) {
        let place = self.random.below(self.live.len());
        if place < self.live.len() {
            let key = self.live.swap_remove(place);
            self.put(&line(2, &key, 0));
        } else {
            self.absent();
        }
    }

    fn find_live(&mut self) {
        let key = self.a_live_one().unwrap_or(b"none".to_vec());
        self.put(&line(3, &key, 0));
    }

    /// A find or delete of an identifier that is not live: a new one, or the beginning or the
    /// lengthening of a live one.
    fn absent(&mut self) {
        let mut key = self.a_live_one().unwrap_or(b"none".to_vec());
        match self.random.below(3) {
            0 => key.truncate(key.len().div_ceil(2)),
            1 if key.len() < 32 => key.push(b'q'),
            _ => key = self.identifier(),
        }
        if !self.live.contains(&key) {
            let operation = self.random.pick(&[2, 3]);
            return self.put(&line(operation, &key, 0));
        }
        self.find_live();
    }

    fn compact(&mut self) {
        let n = self.random.pick(&[0, 1, 1, 2, 3, 5, 20, 65_535]);
        self.put(&line(4, b"", n));
    }

    fn wrong_length(&mut self, mut good: Vec<u8>) {
        let (place, digit) = (2 + self.random.below(2), self.random.pick(b"0123456789abcdef"));
        if good[place] == digit {
            good.push(digit);
        } else {
            good[place] = digit;
        }
        self.put(&good);
    }

    fn wrong_byte(&mut self, mut good: Vec<u8>) {
        let place = self.random.below(good.len());
        good[place] = self.random.pick(b" g/:`@GAF\0\t\r\x7f\x80\xff");
        self.put(&good);
    }

    /// An identifier that is empty, too long or with another character.
    fn wrong_key(&mut self, row: u32) {
        let length = self.random.pick(&[0, 33, 34, 64, 255, 5]);
        let mut key = self.random.word(CHARACTERS, length);
        if length == 5 {
            let place = self.random.below(length);
            key[place] = self.random.pick(b"AZ_ /:`{\n\0\x80\xff");
        }
        let operation = self.random.pick(&[1, 2, 3]);
        self.put(&line(operation, &key, if operation == 1 { row } else { 0 }));
    }

    fn put(&mut self, line: &[u8]) {
        self.answer(line);
    }

    /// Adds a line to the sheet and carries it out on the table beside the sheet.
    fn answer(&mut self, line: &[u8]) -> Answer {
        self.sheet.extend_from_slice(line);
        self.sheet.push(b'\n');
        answer_line(&mut self.base, &mut self.check, line)
    }
}

/// A line of a sheet, well-formed or not.
pub fn line(operation: u8, key: &[u8], number: u32) -> Vec<u8> {
    let mut line = format!("{operation:02x}").into_bytes();
    line.extend(counted(key, number));
    line
}

/// Lines of 521 to 524 bytes, blank lines, CR LF, NULs, bytes past ASCII, and a good one.
pub fn odd_lines() -> Vec<u8> {
    let longest = line(1, &[b'a'; 255], 1);
    let good = line(1, b"zz", 26);
    let lines = [
        &longest[..521],
        &longest,
        &[&longest, &b"0"[..]].concat(),
        &[&longest, &b"00"[..]].concat(),
        // The last bytes alone would be a command.
        &[&b"0".repeat(523), &good[..]].concat(),
        b"",
        b"",
        &[&good, &b"\r"[..]].concat(),
        b"\r",
        b"\0",
        &[&good, &b"\0"[..]].concat(),
        &[&good[..6], b"\0\0", &good[8..]].concat(),
        &(0x80..=0xff).collect::<Vec<u8>>(),
        &good,
    ];
    lines.map(|line| [line, b"\n"].concat()).concat()
}
