//! Arrays of random contents: small values, extreme ones, and real tables with several elements
//! changed. Every call on each.

use super::Writer;
use crate::arrays::{empty, Arrays};
use crate::sheets::Random;
use crate::{delete, insert};

/// A kind's name and the function that draws its next arrays.
type Kind = (&'static str, fn(&mut Random) -> Arrays);

const KINDS: [Kind; 3] =
    [("small values", small), ("extreme values", extreme), ("a changed table", changed)];

pub fn write(w: &mut Writer) {
    let mut random = Random::new(2_024);
    for number in 0..w.many(2_500, 40) {
        for (name, make) in KINDS {
            w.title(format!("{name} {number}"));
            w.set(make(&mut random));
            w.every_call(&["a", "ab", "b-", "aaaaaaaaaaaaaaaaaaaaaaaaaaaaaaaa"]);
        }
    }
}

/// Small enough to be links, cells and rows of arrays of this length.
fn small(random: &mut Random) -> Arrays {
    let length = 2 + random.below(12);
    let mut array = || (0..length).map(|_| random.below(9) as i32 - 4).collect();
    (array(), array())
}

/// Arrays that begin as a table does, mostly, so that not all is over at the size.
fn extreme(random: &mut Random) -> Arrays {
    let length = 2 + random.below(12);
    let mut array = || (0..length).map(|_| value(random)).collect::<Vec<_>>();
    let (mut base, mut check) = (array(), array());
    if random.chance(70) {
        (base[0], base[1], check[1]) = (length as i32 - 1, 1, 1);
    }
    (base, check)
}

fn value(random: &mut Random) -> i32 {
    let any = random.draw() as i32;
    let near = random.below(160) as i32 - 80;
    random.pick(&[i32::MIN, i32::MIN + 1, i32::MAX, i32::MAX - 1, -1, 0, 1, near, near, any])
}

/// A table of random identifiers, some of them deleted again, with up to 4 elements changed.
fn changed(random: &mut Random) -> Arrays {
    let (mut base, mut check) = table(random);
    for _ in 0..random.below(5) {
        let place = random.below(base.len());
        let other = random.pick(&[&base[..], &check].concat());
        let new = [value(random), other, -other.max(-9), other.wrapping_add(1)];
        let array = if random.chance(50) { &mut base } else { &mut check };
        array[place] = random.pick(&new);
    }
    (base, check)
}

fn table(random: &mut Random) -> Arrays {
    let length = 2 + random.below(60);
    let (mut base, mut check) = empty(length);
    for _ in 0..random.below(12) {
        let length = 1 + random.below(4);
        let key = random.word(b"ab-", length);
        if random.chance(75) {
            insert(&mut base, &mut check, &key, random.row());
        } else {
            delete(&mut base, &mut check, &key);
        }
    }
    (base, check)
}
