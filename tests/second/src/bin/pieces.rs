//! Copies standard input to standard output in pieces, so that a reader of the pipe gets short
//! reads: `pieces SEED [GREATEST]`. Sizes are drawn from the seed, from 1 byte to GREATEST (9,000
//! if it is not given). Each piece is one write, with a short wait after it, in which the reader
//! can take it before the next one comes.

use second::sheets::Random;
use std::fs::File;
use std::io::{self, Read, Write};
use std::os::fd::AsFd;
use std::process::ExitCode;
use std::thread::sleep;
use std::time::Duration;

const GREATEST: usize = 9_000;
const WAIT: Duration = Duration::from_micros(20);

/// Sizes that are drawn more often: a few bytes, so that a line comes in many pieces; about the
/// longest line, which is 523 bytes with its line feed; and a little less than a page.
const FAVOURED: [usize; 10] = [1, 2, 3, 5, 7, 11, 13, 521, 523, 4_093];

fn main() -> ExitCode {
    let arguments: Vec<String> = std::env::args().skip(1).collect();
    let Some((seed, greatest)) = asked_for(&arguments) else {
        eprintln!("pieces SEED [GREATEST], of numbers, GREATEST 1 or more");
        return ExitCode::from(2);
    };
    match copy(Random::new(seed), greatest) {
        Ok(()) => ExitCode::SUCCESS,
        Err(_) => ExitCode::FAILURE,
    }
}

fn asked_for(arguments: &[String]) -> Option<(u64, usize)> {
    let (seed, greatest) = match arguments {
        [seed] => (seed, GREATEST),
        [seed, greatest] => (seed, greatest.parse().ok()?),
        _ => return None,
    };
    Some((seed.parse().ok()?, greatest)).filter(|_| greatest > 0)
}

fn copy(mut random: Random, greatest: usize) -> io::Result<()> {
    let mut bytes = Vec::new();
    io::stdin().read_to_end(&mut bytes)?;
    // Rust's own standard output would gather the pieces into lines; a file does not.
    let mut out = File::from(io::stdout().as_fd().try_clone_to_owned()?);
    let mut rest = bytes.as_slice();
    while !rest.is_empty() {
        let size = size(&mut random, greatest).min(rest.len());
        out.write_all(&rest[..size])?;
        rest = &rest[size..];
        sleep(WAIT);
    }
    Ok(())
}

/// One in four is a favoured one, and most of those are small; with more, long sheets would take
/// long.
fn size(random: &mut Random, greatest: usize) -> usize {
    let any = random.below(greatest) + 1;
    if random.chance(25) {
        random.pick(&FAVOURED).min(greatest)
    } else {
        any
    }
}
