//! The second program: the eight calls of document 01, written from that page alone so that
//! it can be compared with the proved program. It is plain on purpose. It knows no chain: it
//! reads the used cells, works on them, and writes every element of both arrays anew.

pub mod arrays;
mod audit;
pub mod cases;
pub mod command;
pub mod sheets;
pub mod table;
pub mod text;

use command::{find_row, perform, Command};
use table::Table;

pub const DONE: u8 = 0;
pub const SIZE: u8 = 1;
pub const KEY: u8 = 2;
pub const NUMBER: u8 = 3;
pub const DAMAGED: u8 = 4;
pub const PRESENT: u8 = 5;
pub const ABSENT: u8 = 6;
pub const NO_ROOM: u8 = 7;
pub const NO_SPACE: u8 = 8;
pub const LINE: u8 = 9;

pub const GREATEST_ROW: u32 = 1_000_000;
pub const GREATEST_MOVES: u32 = 65_535;
pub const GREATEST_LENGTH: usize = 65_536;

/// An answer: its number from document 01's table, and its value.
#[derive(Clone, Copy, Debug, PartialEq, Eq)]
pub struct Answer {
    pub number: u8,
    pub value: u32,
}

/// A value when done, or else the refusing answer. Refusals leave a call early by `?`.
type Outcome = Result<u32, Answer>;

/// A refusal with value 0, which is every refusal but PRESENT.
fn refusal(number: u8) -> Answer {
    Answer { number, value: 0 }
}

fn settle(outcome: Outcome) -> Answer {
    match outcome {
        Ok(value) => Answer { number: DONE, value },
        Err(refused) => refused,
    }
}

fn ask(holds: bool, number: u8) -> Result<(), Answer> {
    holds.then_some(()).ok_or(refusal(number))
}

fn ask_lengths(base: &[i32], check: &[i32]) -> Result<(), Answer> {
    let right = base.len() == check.len() && (2..=GREATEST_LENGTH).contains(&base.len());
    ask(right, SIZE)
}

fn ask_audit(base: &[i32], check: &[i32]) -> Result<(), Answer> {
    ask_lengths(base, check)?;
    ask(audit::sound(base, check), DAMAGED)
}

pub fn fresh(base: &mut [i32], check: &mut [i32]) -> Answer {
    settle(ask_lengths(base, check).map(|()| {
        Table::fresh(base.len()).write(base, check);
        0
    }))
}

pub fn find(base: &[i32], check: &[i32], key: &[u8]) -> Answer {
    settle(ask_lengths(base, check).and_then(|()| {
        let labels = text::labels(key).ok_or(refusal(KEY))?;
        find_row(base, check, &labels)
    }))
}

pub fn insert(base: &mut [i32], check: &mut [i32], key: &[u8], row: u32) -> Answer {
    edit(base, check, Command::insert(key, row))
}

pub fn delete(base: &mut [i32], check: &mut [i32], key: &[u8]) -> Answer {
    edit(base, check, Command::delete(key))
}

pub fn compact(base: &mut [i32], check: &mut [i32], n: u32) -> Answer {
    edit(base, check, Command::compact(n))
}

/// A single editing call: the lengths first, then what making the command has refused
/// (KEY, then NUMBER), then the audit, then the work itself.
fn edit(base: &mut [i32], check: &mut [i32], command: Result<Command, Answer>) -> Answer {
    settle(ask_lengths(base, check).and_then(|()| {
        let command = command?;
        ask_audit(base, check)?;
        perform(base, check, command)
    }))
}

pub fn audit(base: &[i32], check: &[i32]) -> Answer {
    settle(ask_audit(base, check).map(|()| 0))
}

pub fn list(base: &[i32], check: &[i32], out: &mut [u8]) -> Answer {
    settle(ask_audit(base, check).and_then(|()| {
        let listing = text::listing(&Table::read(base, check).entries());
        let place = out.get_mut(..listing.len()).ok_or(refusal(NO_SPACE))?;
        place.copy_from_slice(&listing);
        Ok(count(listing.len()))
    }))
}

pub fn run(base: &mut [i32], check: &mut [i32], sheet: &[u8], out: &mut [u8]) -> Answer {
    settle(ask_audit(base, check).and_then(|()| {
        let lines = text::lines(sheet);
        ask(out.len() / text::ANSWER_LENGTH >= lines.len(), NO_SPACE)?;
        for (line, place) in lines.iter().zip(out.chunks_exact_mut(text::ANSWER_LENGTH)) {
            let answer = answer_line(base, check, line);
            place.copy_from_slice(&text::answer(answer));
        }
        Ok(count(lines.len()))
    }))
}

/// The answer to one line of a sheet, over a table that has passed the audit.
fn answer_line(base: &mut [i32], check: &mut [i32], line: &[u8]) -> Answer {
    settle(Command::from_line(line).and_then(|command| perform(base, check, command)))
}

/// A count as an answer's value. No count met in practice is over 32 bits.
fn count(number: usize) -> u32 {
    u32::try_from(number).unwrap_or(u32::MAX)
}
