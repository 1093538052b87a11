//! Generated histories: 200,000 commands, refused ones among them, on tables of many lengths.
//! Every element is compared after every command.

use super::Writer;
use crate::sheets::Random;
use crate::text::CHARACTERS;
use crate::DONE;

pub fn write(w: &mut Writer) {
    INSERTED.iter().for_each(|history| inserted(w, history));
    MIXED.iter().for_each(|history| mixed(w, history));
    let all = w.many(200_000, 5_000);
    let commands = w.many(600, 30);
    for (length, alphabet) in LARGE {
        w.title(format!("large history, length {length}"));
        History::new(w, 1, length, alphabet).go_on(commands);
    }
    generated(w, all);
}

/// Histories of all lengths and alphabets, over and over with other seeds, up to so many commands.
fn generated(w: &mut Writer, all: usize) {
    let commands = w.many(250, 8);
    let lengths = || (2..=24).chain((26..=60).step_by(2)).chain((70..=300).step_by(10));
    let kinds = || lengths().flat_map(|length| ALPHABETS.map(|alphabet| (length, alphabet)));
    for (seed, (length, alphabet)) in (1..).flat_map(|seed| kinds().map(move |kind| (seed, kind))) {
        let left = all.saturating_sub(w.commands);
        if left == 0 {
            return;
        }
        w.title(format!("history {seed}, length {length}, up to {} characters", alphabet.1));
        History::new(w, seed, length, alphabet).go_on(commands.min(left));
    }
}

/// Characters, and how long identifiers of them are at most.
pub(super) type Alphabet = (&'static [u8], usize);

const ALPHABETS: [Alphabet; 5] =
    [(b"ab", 6), (b"abcx9-", 3), (b"nl-0", 9), (b"az-", 32), (CHARACTERS, 5)];

const LARGE: [(usize, Alphabet); 5] = [
    (1_000, (b"nl-0123456789", 9)),
    (1_000, (CHARACTERS, 4)),
    (2_000, (b"abcx9-", 32)),
    (3_000, (CHARACTERS, 12)),
    (4_096, (CHARACTERS, 32)),
];

/// A table with what is drawn for it: identifiers of these characters, so long at most.
pub(super) struct History<'a> {
    pub w: &'a mut Writer,
    pub random: Random,
    pub live: Vec<Vec<u8>>,
    characters: &'static [u8],
    longest: usize,
}

impl History<'_> {
    /// On a fresh table.
    pub fn new<'a>(
        w: &'a mut Writer,
        seed: u64,
        length: usize,
        (characters, longest): Alphabet,
    ) -> History<'a> {
        w.start(length);
        let random = Random::new(seed + length as u64 * 1_000);
        History { w, random, live: Vec::new(), characters, longest }
    }

    fn go_on(&mut self, commands: usize) {
        (0..commands).for_each(|_| self.command());
        self.w.list_all();
    }

    fn command(&mut self) {
        match self.random.below(20) {
            0..=8 => _ = self.insert(10),
            9..=14 => self.delete(),
            15..=16 => self.compact(),
            17..=18 => self.find(),
            _ => self.refused(),
        }
    }

    /// An identifier, live in so many of a hundred cases if there is one. Half of the others begin
    /// as a live one does; short ones are many, since those find room.
    fn key(&mut self, live: usize) -> Vec<u8> {
        let place = self.random.below(self.live.len());
        let other = self.live.get(place).cloned().unwrap_or_default();
        if !other.is_empty() && self.random.chance(live) {
            return other;
        }
        let shared = self.random.below(2 * other.len()).min(other.len());
        let short = 1 + self.random.below(3);
        let length = self.random.pick(&[short, short, self.longest]);
        let mut key = [&other[..shared], &self.random.word(self.characters, length)].concat();
        key.truncate(self.longest);
        key
    }

    /// Inserts an identifier, which is live in so many of a hundred cases; gives the answer's number.
    pub fn insert(&mut self, live: usize) -> u8 {
        let (key, row) = (self.key(live), self.random.row());
        let number = self.w.insert(&key, row).number;
        if number == DONE {
            self.live.push(key);
        }
        number
    }

    fn delete(&mut self) {
        let key = self.key(80);
        if self.w.delete(&key).number == DONE {
            self.live.retain(|other| *other != key);
        }
    }

    fn compact(&mut self) {
        let n = self.random.pick(&[0, 1, 1, 2, 5, 65_535]);
        self.w.compact(n);
    }

    fn find(&mut self) {
        let key = self.key(60);
        self.w.find(key);
    }

    /// Refused whatever the table holds: KEY or NUMBER.
    fn refused(&mut self) {
        let key = self.key(50);
        let wrong = self.random.pick(&[&b""[..], b"A", b"a_b", &[b'a'; 33], b"\0", b"a\xff"]);
        match self.random.below(5) {
            0 => self.w.insert(wrong, 1),
            1 => self.w.delete(wrong),
            2 => self.w.find(wrong),
            3 => self.w.compact(self.random.pick(&[65_536, 1 << 31, u64::MAX])),
            _ => self.w.insert(key, self.random.pick(&[0, 1_000_001, u32::MAX])),
        };
    }
}

/// Lengths, letters and seeds. They are chosen so that children often move, several at a time
/// too, that many identifiers are live already or find no room, and that some find none only
/// after children would have moved.
const INSERTED: [(usize, &str, u64); 12] = [
    (12, "ab", 41),
    (12, "abc", 45),
    (20, "abe-", 197),
    (30, "ab", 176),
    (30, "ac9", 45),
    (30, "nl-0", 75),
    (30, "az-", 141),
    (60, "nl-0", 151),
    (80, "abc", 30),
    (80, "ac9", 382),
    (300, "abcdefgh", 1),
    (300, "nl-0", 1),
];

/// Sixty identifiers of 1 to 6 letters, their rows 1 to 60.
fn inserted(w: &mut Writer, &(length, letters, mut state): &(usize, &str, u64)) {
    w.title(format!("sixty insertions, length {length}, letters {letters}"));
    w.start(length);
    for row in 1..=60 {
        let (key, drawn) = draw(letters, state);
        w.insert_and_ask(&key, row);
        state = drawn;
    }
}

/// Lengths, letters, how many identifiers, and seeds. They are chosen so that children often
/// move, by compact and by the step after a delete, that a delete often frees several cells,
/// that tables are often emptied, and that many identifiers find no room.
const MIXED: [(usize, &str, usize, u64); 12] = [
    (12, "ab", 8, 3927),
    (12, "abc", 6, 3707),
    (20, "abe-", 5, 4872),
    (20, "abc", 16, 971),
    (30, "ab", 16, 710),
    (30, "ac9", 24, 2862),
    (45, "az-", 6, 2134),
    (60, "nl-0", 32, 341),
    (80, "abc", 32, 71),
    (80, "ac9", 32, 487),
    (300, "abcdefgh", 24, 100),
    (300, "nl-0", 24, 344),
];

/// 120 commands, with the rows 1 to 120: of eight, one compacts by at most 3 moves, four insert
/// and three delete one of so many identifiers. Those are drawn from the states 0, 1, 2 and
/// upward.
fn mixed(w: &mut Writer, &(length, letters, many, seed): &(usize, &str, usize, u64)) {
    w.title(format!("120 commands, length {length}, letters {letters}"));
    w.start(length);
    let mut state = seed;
    for row in 1..=120 {
        let kind = below(next(state), 8);
        state = next(next(state));
        let (key, _) = draw(letters, below(state, many) as u64);
        match kind {
            0 => w.compact_and_ask(below(state, 4) as u64),
            1..=4 => w.insert_and_ask(&key, row),
            _ => w.delete_and_ask(&key),
        }
    }
}

/// A linear congruential generator: its next state.
fn next(state: u64) -> u64 {
    (state * 1_103_515_245 + 12_345) % 2_147_483_648
}

/// A number below a bound, from the state's upper bits.
fn below(state: u64, bound: usize) -> usize {
    (state / 65_536) as usize % bound
}

/// An identifier of 1 to 6 letters, drawn from this state on, and the state after it.
fn draw(letters: &str, mut state: u64) -> (String, u64) {
    let letter = |_| {
        state = next(state);
        letters.as_bytes()[below(state, letters.len())] as char
    };
    let drawn: String = [(); 6].map(letter).iter().collect();
    state = next(state);
    (drawn[..1 + below(state, 6)].into(), state)
}
