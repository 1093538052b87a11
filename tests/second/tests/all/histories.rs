//! Random histories against a plain map. After every command the table is sound, finds what the
//! map holds and nothing else, and lists the map's entries in order of label codes.

use crate::common::*;
use second::sheets::Random;
use second::*;
use std::collections::BTreeMap;

type Map = BTreeMap<Vec<u8>, u32>;

struct History {
    random: Random,
    characters: &'static [u8],
    longest: usize,
    table: Pair,
    map: Map,
    no_room: usize,
}

impl History {
    fn new(seed: u64, length: usize, characters: &'static [u8], longest: usize) -> History {
        History {
            random: Random::new(seed),
            characters,
            longest,
            table: Pair::fresh(length),
            map: Map::new(),
            no_room: 0,
        }
    }

    fn command(&mut self) {
        let key = self.key();
        match self.random.below(10) {
            0..=4 => self.insert(key),
            5..=7 => self.delete(key),
            _ => self.compact(),
        }
        self.agrees();
    }

    /// Half of the time a live identifier, if there is one.
    fn key(&mut self) -> Vec<u8> {
        let live: Vec<_> = self.map.keys().collect();
        if !live.is_empty() && self.random.chance(50) {
            return self.random.pick(&live).clone();
        }
        let length = 1 + self.random.below(self.longest);
        self.random.word(self.characters, length)
    }

    fn insert(&mut self, key: Vec<u8>) {
        let row = self.random.row();
        let size = self.table.size();
        let answer = self.table.insert(&key, row);
        match self.map.get(&key) {
            Some(&value) => {
                let number = PRESENT;
                assert_eq!(answer, Answer { number, value });
            }
            None if answer == refused(NO_ROOM) => self.no_room += 1,
            None => {
                assert_eq!(answer.number, DONE);
                assert!(answer.value < 38);
                assert_eq!(self.table.size(), size.max(self.table.largest_used()));
                self.map.insert(key, row);
            }
        }
    }

    fn delete(&mut self, key: Vec<u8>) {
        let answer = self.table.delete(&key);
        match self.map.remove(&key) {
            Some(row) => {
                assert_eq!(answer, done(row));
                assert_eq!(self.table.size(), self.table.largest_used());
            }
            None => assert_eq!(answer, refused(ABSENT)),
        }
    }

    fn compact(&mut self) {
        let n = self.random.pick(&[0, 0, 1, 2, 5, 65_535]);
        let mut steps = self.table.clone();
        let answer = self.table.compact(n);
        assert!(answer.number == DONE && answer.value <= n);
        assert_eq!(self.table.size(), self.table.largest_used());
        // The same moves one at a time; below n, one more moves nothing.
        for _ in 0..answer.value {
            assert_eq!(steps.compact(1), done(1));
        }
        let further = u32::from(answer.value < n);
        assert_eq!(steps.compact(further), done(0));
        assert_eq!(steps, self.table);
    }

    fn agrees(&mut self) {
        assert_eq!(self.table.audit(), done(0));
        for (key, &row) in &self.map {
            assert_eq!(self.table.find(key), done(row));
        }
        for _ in 0..5 {
            let key = self.key();
            let expected = self.map.get(&key).map_or(refused(ABSENT), |&row| done(row));
            assert_eq!(self.table.find(key), expected);
        }
        assert_eq!(self.table.listing(), listing(&self.map));
    }
}

/// The map's listing. Letters come before digits and the hyphen last, so those are put after
/// the letters by other bytes, whose plain order is then that of the label codes.
pub fn listing(map: &Map) -> String {
    let place = |&byte: &u8| match byte {
        b'0'..=b'9' => byte + 0x80,
        b'-' => 0xff,
        _ => byte,
    };
    let mut entries: Vec<_> = map.iter().collect();
    entries.sort_by_key(|(key, _)| key.iter().map(place).collect::<Vec<_>>());
    let line = |(key, row): (&Vec<u8>, &u32)| {
        let characters: String = key.iter().map(|byte| format!("{byte:02x}")).collect();
        format!("{:02x}{characters}{row:08x}\n", key.len())
    };
    entries.into_iter().map(line).collect()
}

fn histories(lengths: &[usize], commands: usize) -> usize {
    let alphabets: [(&[u8], usize); 4] =
        [(b"ab", 4), (b"abcx9-", 3), (b"aaz0-", 32), (b"abcdefghijklmnopqrstuvwxyz0123456789-", 6)];
    let mut no_room = 0;
    for (&length, seed) in lengths.iter().flat_map(|length| (1..=3).map(move |seed| (length, seed)))
    {
        for (characters, longest) in alphabets {
            let mut history = History::new(seed, length, characters, longest);
            (0..commands).for_each(|_| history.command());
            no_room += history.no_room;
        }
    }
    no_room
}

#[test]
fn in_small_arrays_where_no_room_is_frequent() {
    let no_room = histories(&[2, 3, 4, 5, 6, 7, 8, 9, 10, 12, 15, 20, 25, 30], 400);
    assert!(no_room > 1_000);
}

#[test]
fn in_middling_arrays() {
    let no_room = histories(&[40, 41, 60, 80, 120, 200, 300, 300, 500], 500);
    assert!(no_room > 100);
}

#[test]
fn in_a_large_array() {
    histories(&[2_000], 300);
}
