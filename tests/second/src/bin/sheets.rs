//! Prints a sheet: `sheets SEED LINES [KIND]`. What each kind is for is said in the library's
//! module `sheets`; without a kind it is mixed.

use second::sheets::{sheet, KINDS};
use std::io::{self, Write};
use std::process::ExitCode;

fn main() -> ExitCode {
    let arguments: Vec<String> = std::env::args().skip(1).collect();
    let Some(sheet) = asked_for(&arguments) else {
        let kinds: Vec<&str> = KINDS.iter().map(|(name, _)| *name).collect();
        eprintln!("sheets SEED LINES [KIND], the kinds being {}", kinds.join(", "));
        return ExitCode::from(2);
    };
    match io::stdout().write_all(&sheet) {
        Ok(()) => ExitCode::SUCCESS,
        Err(_) => ExitCode::FAILURE,
    }
}

fn asked_for(arguments: &[String]) -> Option<Vec<u8>> {
    let (seed, lines, kind) = match arguments {
        [seed, lines] => (seed, lines, "mixed"),
        [seed, lines, kind] => (seed, lines, kind.as_str()),
        _ => return None,
    };
    sheet(seed.parse().ok()?, lines.parse().ok()?, kind)
}
