//! Commands: what an insert, delete, find or compact asks for once its parts are in range,
//! whether it came as a single call or as a line of a sheet.

use crate::table::{Table, ROOT};
use crate::{ask, refusal, text, Answer, Outcome};
use crate::{ABSENT, GREATEST_MOVES, GREATEST_ROW, KEY, LINE, NUMBER};

pub enum Command {
    Insert(Vec<usize>, u32),
    Delete(Vec<usize>),
    Find(Vec<usize>),
    Compact(u32),
}

impl Command {
    pub fn insert(key: &[u8], row: u32) -> Result<Command, Answer> {
        let labels = ask_key(key)?;
        ask((1..=GREATEST_ROW).contains(&row), NUMBER)?;
        Ok(Command::Insert(labels, row))
    }

    pub fn delete(key: &[u8]) -> Result<Command, Answer> {
        ask_key(key).map(Command::Delete)
    }

    pub fn compact(n: u32) -> Result<Command, Answer> {
        ask(n <= GREATEST_MOVES, NUMBER)?;
        Ok(Command::Compact(n))
    }

    /// The command of a sheet's line: LINE, then KEY, then NUMBER.
    pub fn from_line(line: &[u8]) -> Result<Command, Answer> {
        let line = text::read_line(line).ok_or(refusal(LINE))?;
        match line.operation {
            1 => Command::insert(&line.key, line.number),
            2 => Command::delete(&line.key),
            3 => ask_key(&line.key).map(Command::Find),
            _ => Command::compact(line.number),
        }
    }
}

fn ask_key(key: &[u8]) -> Result<Vec<usize>, Answer> {
    text::labels(key).ok_or(refusal(KEY))
}

/// Carries a command out on arrays that have passed the audit. The work is done on a copy of
/// the used cells, so a refusal on the way leaves the arrays alone.
pub fn perform(base: &mut [i32], check: &mut [i32], command: Command) -> Outcome {
    let mut table = Table::read(base, check);
    let value = match command {
        Command::Insert(labels, row) => table.insert(&labels, row)?,
        Command::Delete(labels) => table.delete(&labels)?,
        Command::Find(labels) => return find_row(base, check, &labels),
        Command::Compact(n) => table.compact(n),
    };
    table.write(base, check);
    Ok(value)
}

/// The walk of Finding on raw arrays of right length and any contents; base[0] is not read.
/// Sums are taken in 64 bits, so no value in the arrays can overflow them.
pub fn find_row(base: &[i32], check: &[i32], labels: &[usize]) -> Outcome {
    let mut cell = ROOT;
    for label in labels {
        ask(base[cell] >= 1, ABSENT)?;
        let below = i64::from(base[cell]) + *label as i64;
        ask(below < base.len() as i64, ABSENT)?;
        ask(i64::from(check[below as usize]) == cell as i64, ABSENT)?;
        cell = below as usize;
    }
    let row = -i64::from(base[cell]);
    ask((1..=i64::from(GREATEST_ROW)).contains(&row), ABSENT)?;
    Ok(row as u32)
}
