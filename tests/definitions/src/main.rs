//! Writes an antt file of cases: for random arrays and steps, that the definitions of
//! `crates/rules` give what the second program gives. The checker closes each by computation,
//! so a case that fails shows that one of the two has read document 01 wrongly. Commands are
//! stated of the plain method's table too, whose links are 0.
//!
//! usage: definitions SEED HISTORIES

use second::sheets::{line, Random};
use second::{audit, compact, delete, find, fresh, insert, list, run, Answer, GREATEST_ROW};
use std::fmt::Write;

/// What is lent to a step.
#[derive(Clone)]
struct Lent {
    base: Vec<i32>,
    check: Vec<i32>,
    out: Vec<u8>,
}

impl Lent {
    /// The same with the links blanked: only they are negative in check.
    fn plain(&self) -> Lent {
        let check = self.check.iter().map(|&x| x.max(0)).collect();
        Lent { check, ..self.clone() }
    }

    fn text(&self) -> String {
        format!("({}) ({}) ({})", numbers(&self.base), numbers(&self.check), bytes(&self.out))
    }
}

/// A step, as `Figures.antt` names them.
enum Step {
    Fresh,
    Insert(Vec<u8>, u32),
    Delete(Vec<u8>),
    Find(Vec<u8>),
    Compact(u32),
    Audit,
    List,
    Run(Vec<u8>),
}

impl Step {
    fn by_the_second_program(&self, lent: &mut Lent) -> Answer {
        let Lent { base, check, out } = lent;
        match self {
            Step::Fresh => fresh(base, check),
            Step::Insert(key, row) => insert(base, check, key, *row),
            Step::Delete(key) => delete(base, check, key),
            Step::Find(key) => find(base, check, key),
            Step::Compact(n) => compact(base, check, *n),
            Step::Audit => audit(base, check),
            Step::List => list(base, check, out),
            Step::Run(sheet) => run(base, check, sheet, out),
        }
    }

    fn text(&self) -> String {
        match self {
            Step::Fresh => "fresh".to_string(),
            Step::Insert(key, row) => format!("(command (insert ({}) {row}))", bytes(key)),
            Step::Delete(key) => format!("(command (delete ({})))", bytes(key)),
            Step::Find(key) => format!("(command (find ({})))", bytes(key)),
            Step::Compact(n) => format!("(command (compact {n}))"),
            Step::Audit => "audit".to_string(),
            Step::List => "list".to_string(),
            Step::Run(sheet) => format!("(run ({}))", bytes(sheet)),
        }
    }
}

fn listed(items: impl Iterator<Item = String>) -> String {
    items.map(|item| item + " ∷ ").collect::<String>() + "[]"
}

fn bytes(from: &[u8]) -> String {
    listed(from.iter().map(u8::to_string))
}

fn numbers(from: &[i32]) -> String {
    listed(from.iter().map(|&x| {
        let side = if x < 0 { "negative" } else { "positive" };
        format!("{side} {}", x.unsigned_abs())
    }))
}

/// The file so far, and how many cases it has.
struct Cases {
    text: String,
    count: usize,
}

impl Cases {
    fn state(&mut self, kind: &str, step: &Step, before: &Lent, answer: Answer, after: &Lent) {
        self.count += 1;
        let (name, step) = (format!("case{}", self.count), step.text());
        let (before, after) = (before.text(), after.text());
        let Answer { number, value } = answer;
        write!(
            self.text,
            "\n{name} : seen (given {kind} {step} {before}) ≡ shown {number} {value} {after}\n\
             unfolding given\n{name} = refl\n"
        )
        .expect("a string takes all text");
    }

    /// The step is done by the second program, and what it shows is stated of the definitions.
    fn add(&mut self, step: &Step, lent: &mut Lent) -> Answer {
        let before = lent.clone();
        let answer = step.by_the_second_program(lent);
        self.state("chained", step, &before, answer, lent);
        answer
    }

    /// The same on a sound table, and stated of the plain method's table too.
    fn add_both(&mut self, step: &Step, lent: &mut Lent) {
        let before = lent.plain();
        let answer = self.add(step, lent);
        self.state("plain", step, &before, answer, &lent.plain());
    }
}

/// Mostly short identifiers over few characters, so that they share beginnings and collide;
/// some at the limits, and some that are none.
fn identifier(random: &mut Random) -> Vec<u8> {
    let length = random.pick(&[1, 1, 2, 2, 2, 3]);
    let mut key = random.word(b"aabbz", length);
    match random.below(40) {
        0 => key.clear(),
        1 => key.push(b'A'),
        2 => key = vec![b'a'; 33],
        3 => key = vec![b'a'; 32],
        4 => key.push(b'-'),
        5 => key.push(b'0'),
        _ => {}
    }
    key
}

fn row(random: &mut Random) -> u32 {
    if random.chance(92) {
        return random.row();
    }
    random.pick(&[0, GREATEST_ROW + 1, u32::MAX])
}

fn edit(random: &mut Random) -> Step {
    match random.below(10) {
        0..=4 => Step::Insert(identifier(random), row(random)),
        5..=7 => Step::Delete(identifier(random)),
        8 => Step::Find(identifier(random)),
        _ => Step::Compact(random.pick(&[0, 1, 2, 5, 65_535, 65_536])),
    }
}

/// A line of a sheet: mostly a command, sometimes a broken one.
fn a_line(random: &mut Random) -> Vec<u8> {
    let (operation, key, number) = match edit(random) {
        Step::Insert(key, row) => (1, key, row),
        Step::Delete(key) => (2, key, random.pick(&[0, 0, 0, 1])),
        Step::Find(key) => (3, key, random.pick(&[0, 0, 0, 1])),
        Step::Compact(n) => (random.pick(&[4, 4, 4, 5]), Vec::new(), n),
        _ => (0, Vec::new(), 0),
    };
    let text = line(operation, &key, number);
    match random.below(12) {
        0 => Vec::new(),
        1 => [text, b"0".to_vec()].concat(),
        2 => text.to_ascii_uppercase(),
        _ => text,
    }
}

fn sheet(random: &mut Random) -> Vec<u8> {
    let lines: Vec<Vec<u8>> = (0..random.below(4)).map(|_| a_line(random)).collect();
    let end: &[u8] = if random.chance(50) { b"\n" } else { b"" };
    [&lines.join(&b'\n'), end].concat()
}

/// One element of a table is overwritten; then each call meets it.
fn damage(random: &mut Random, lent: &Lent, cases: &mut Cases) {
    let mut lent = lent.clone();
    let length = lent.base.len();
    let near = random.below(2 * length) as i32 - length as i32;
    let value = random.pick(&[i32::MIN, i32::MAX, near, near, near, near]);
    let at = random.below(length);
    let array = if random.chance(50) { &mut lent.base } else { &mut lent.check };
    array[at] = value;
    for step in [Step::Audit, Step::Find(identifier(random)), edit(random), Step::List] {
        cases.add(&step, &mut lent.clone());
    }
    cases.add(&Step::Run(sheet(random)), &mut lent);
}

/// Commands on one table, then a listing, a sheet and some damage.
fn history(random: &mut Random, cases: &mut Cases) {
    let length = random.pick(&[2, 3, 4, 5, 6, 8, 10, 12, 16, 24, 32, 40, 48, 56, 64, 64]);
    let mut lent = Lent { base: vec![5; length], check: vec![-5; length], out: vec![255; 90] };
    cases.add(&Step::Fresh, &mut lent);
    for _ in 0..24 {
        cases.add_both(&edit(random), &mut lent);
    }
    cases.add_both(&Step::Audit, &mut lent);
    cases.add_both(&Step::List, &mut lent);
    cases.add_both(&Step::Run(sheet(random)), &mut lent);
    damage(random, &lent, cases);
    damage(random, &lent, cases);
    if random.chance(25) {
        lent.check.pop();
        for step in [Step::Audit, Step::List, edit(random), Step::Fresh] {
            cases.add(&step, &mut lent);
        }
    }
}

/// A table whose one leaf, in cell 2, lies `steps` below the root: cells 3, 4 and so on are a
/// path of labels a. It is sound from 2 to 33 steps.
fn path(steps: usize) -> Lent {
    let size = steps + 1;
    let mut parent = 1;
    let (mut base, mut check) = (vec![size as i32, 1, -7], vec![-(size as i32) - 1, 1, 1]);
    for cell in 3..=size as i32 {
        base[parent as usize] = cell - 2;
        base.push(1);
        check.push(parent);
        parent = cell;
    }
    check[2] = parent;
    Lent { base, check, out: vec![255; 90] }
}

/// The path of two steps, and beside it two cells that are each other's parent: all but rule 7.
fn ring() -> Lent {
    let mut lent = path(2);
    lent.base.extend([3, 2]);
    lent.check.extend([5, 4]);
    (lent.base[0], lent.check[0]) = (5, -6);
    lent
}

/// Tables that no history makes, at the edges of rule 7.
fn edges(random: &mut Random, cases: &mut Cases) {
    for lent in [path(1), path(2), path(32), path(33), path(34), path(35), ring()] {
        for step in [Step::Audit, Step::List, Step::Find(vec![b'a'; 32]), Step::Compact(9)] {
            cases.add(&step, &mut lent.clone());
        }
        damage(random, &lent, cases);
    }
}

const TOP: &str = "-- Written by tests/definitions: what the second program gives.
use Rattle.std.specs.Prelude.{◌≡◌, refl, List, [], ◌∷◌, ℕ, ℤ}
use Rattle.numbers.specs.Stored.{positive, negative}
use Rattle.rules.specs.Answers.{number, value}
use Rattle.rules.specs.Commands.{insert, delete, find, compact}
use Rattle.rules.specs.Rendering.{chained}
use Rattle.rules.specs.PlainMethod.{plain}
use Rattle.rules.specs.Calls.{Ran}
use Rattle.rules.specs.Figures.{fresh, command, audit, list, run, given}

record Seen : Type 0 where
  answer : ℕ
  worth : ℕ
  base : List ℤ
  check : List ℤ
  out : List ℕ

abbrev shown : ℕ → ℕ → List ℤ → List ℤ → List ℕ → Seen
shown a w b c o = record { answer = a; worth = w; base = b; check = c; out = o }

abbrev seen : Ran → Seen
seen r = shown (number r.answer) (value r.answer) r.base r.check r.out
";

fn main() {
    let words: Vec<u64> = std::env::args().skip(1).filter_map(|w| w.parse().ok()).collect();
    let [seed, histories] = words[..] else {
        eprintln!("usage: definitions SEED HISTORIES");
        std::process::exit(2);
    };
    let mut random = Random::new(seed);
    let mut cases = Cases { text: TOP.to_string(), count: 0 };
    edges(&mut random, &mut cases);
    for _ in 0..histories {
        history(&mut random, &mut cases);
    }
    println!("{}", cases.text);
}
