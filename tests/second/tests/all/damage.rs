//! Random damage: every call ends on arrays of any contents, whatever the audit refuses is
//! refused by the editing calls and by list with nothing changed, and find follows its words.

use crate::common::*;
use second::sheets::{line, Random};
use second::*;

const ALPHABET: &str = "abcdefghijklmnopqrstuvwxyz0123456789-";

/// The walk of Finding, handing on the rest of the identifier; the end mark is a line feed here.
fn walk(pair: &Pair, cell: usize, rest: &[u8]) -> Option<i64> {
    let base = i64::from(pair.base[cell]);
    let Some((&character, rest)) = rest.split_first() else {
        return (-1_000_000..=-1).contains(&base).then_some(-base);
    };
    let code = match ALPHABET.find(char::from(character)) {
        Some(place) => place as i64 + 2,
        None => 1,
    };
    let below = usize::try_from(base + code).ok()?;
    let goes_on = base >= 1 && i64::from(*pair.check.get(below)?) == cell as i64;
    goes_on.then(|| walk(pair, below, rest))?
}

fn find_follows_the_walk(pair: &Pair, key: &str) {
    let row = walk(pair, 1, format!("{key}\n").as_bytes());
    let expected = row.map_or(refused(ABSENT), |row| done(row as u32));
    assert_eq!(pair.find(key), expected, "{key} in {pair:?}");
}

/// Makes every call on arrays of right length and any contents.
pub fn every_call_ends(pair: &Pair) {
    for key in ["a", "b", "aa", "ab", "abc", "-", "aaaaaaaaaaaaaaaaaaaaaaaaaaaaaaaa"] {
        find_follows_the_walk(pair, key);
    }
    match pair.audit().number {
        DONE => editing_keeps_it_sound(pair),
        DAMAGED => everything_says_damaged(pair.clone()),
        other => panic!("audit answers {other}"),
    }
    let mut pair = pair.clone();
    let length = pair.base.len();
    assert_eq!(fresh(&mut pair.base, &mut pair.check), done(0));
    assert_eq!(pair, Pair::fresh(length));
}

fn everything_says_damaged(mut pair: Pair) {
    let mut out = [b'#'; 40];
    assert_eq!(pair.insert("a_", 0), refused(KEY));
    assert_eq!(pair.insert("a", 0), refused(NUMBER));
    assert_eq!(pair.insert("a", 5), refused(DAMAGED));
    assert_eq!(pair.delete(""), refused(KEY));
    assert_eq!(pair.delete("ab"), refused(DAMAGED));
    assert_eq!(pair.compact(65_536), refused(NUMBER));
    assert_eq!(pair.compact(3), refused(DAMAGED));
    assert_eq!(pair.list(&mut out), refused(DAMAGED));
    assert_eq!(pair.list(&mut []), refused(DAMAGED));
    assert_eq!(pair.run(&line(1, b"a", 5), &mut out), refused(DAMAGED));
    assert_eq!(pair.run(b"", &mut []), refused(DAMAGED));
}

fn editing_keeps_it_sound(pair: &Pair) {
    pair.listing();
    let calls: [fn(&mut Pair) -> Answer; 4] = [
        |pair| pair.insert("abc", 5),
        |pair| pair.insert("-", 6),
        |pair| pair.delete("ab"),
        |pair| pair.compact(65_535),
    ];
    for call in calls {
        let mut pair = pair.clone();
        let answer = call(&mut pair);
        assert!([DONE, PRESENT, ABSENT, NO_ROOM].contains(&answer.number));
        assert_eq!(pair.audit(), done(0));
    }
}

/// A table of random identifiers, some of them deleted again.
fn random_table(random: &mut Random) -> Pair {
    let length = 2 + random.below(70);
    let mut table = Pair::fresh(length);
    for _ in 0..random.below(12) {
        let length = 1 + random.below(4);
        let key = random.word(b"ab-", length);
        if random.chance(75) {
            table.insert(key, random.row());
        } else {
            table.delete(key);
        }
    }
    table
}

/// A value to damage with: extreme, near the cells, of another element, or any at all.
fn value(random: &mut Random, table: &Pair) -> i32 {
    match random.below(4) {
        0 => random.pick(&EXTREMES),
        1 => random.below(160) as i32 - 80,
        2 => random.pick(&[&table.base[..], &table.check].concat()),
        _ => random.draw() as i32,
    }
}

#[test]
fn random_damage_is_met_safely() {
    let mut random = Random::new(2_024);
    let mut damaged = 0;
    for _ in 0..40_000 {
        let mut table = random_table(&mut random);
        for _ in 0..1 + random.below(4) {
            let change = (
                random.pick(&['b', 'c']),
                random.below(table.base.len()),
                value(&mut random, &table),
            );
            table = table.changed(&[change]);
        }
        every_call_ends(&table);
        damaged += usize::from(table.audit().number == DAMAGED);
    }
    assert!((1..40_000).contains(&damaged), "both answers have to occur");
}

#[test]
fn arrays_of_random_contents_are_met_safely() {
    let mut random = Random::new(7);
    for _ in 0..20_000 {
        let length = 2 + random.below(12);
        let mut array = || (0..length).map(|_| random.below(9) as i32 - 4).collect::<Vec<_>>();
        every_call_ends(&Pair::new(array(), array()));
    }
}
