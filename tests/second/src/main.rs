//! As document 01's run_sheet: takes a sheet from standard input and prints the answers, over
//! a fresh table of 4,096 elements.

use second::text::{lines, ANSWER_LENGTH};
use std::io::{self, Read, Write};

const LENGTH: usize = 4_096;

fn main() -> io::Result<()> {
    let mut sheet = Vec::new();
    io::stdin().read_to_end(&mut sheet)?;
    let (mut base, mut check) = (vec![0; LENGTH], vec![0; LENGTH]);
    second::fresh(&mut base, &mut check);
    let mut answers = vec![0; ANSWER_LENGTH * lines(&sheet).len()];
    second::run(&mut base, &mut check, &sheet, &mut answers);
    io::stdout().write_all(&answers)
}
