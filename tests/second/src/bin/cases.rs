//! Writes a set of cases for tests/calls: `cases SET FOLDER [few]` makes FOLDER/SET.cases and
//! FOLDER/SET.expected. Without arguments it prints the names of the sets.

use second::cases::{written, Writer, SETS};
use std::path::Path;
use std::process::ExitCode;
use std::{fs, io};

fn main() -> ExitCode {
    let arguments: Vec<String> = std::env::args().skip(1).collect();
    if arguments.is_empty() {
        SETS.iter().for_each(|(name, _)| println!("{name}"));
        return ExitCode::SUCCESS;
    }
    let Some((set, folder, writer)) = asked_for(&arguments) else {
        eprintln!("cases SET FOLDER [few]");
        return ExitCode::from(2);
    };
    match store(Path::new(folder), set, &writer) {
        Ok(()) => ExitCode::SUCCESS,
        Err(_) => ExitCode::FAILURE,
    }
}

fn asked_for(arguments: &[String]) -> Option<(&str, &str, Writer)> {
    let (set, folder, few) = match arguments {
        [set, folder] => (set, folder, false),
        [set, folder, few] if few == "few" => (set, folder, true),
        _ => return None,
    };
    Some((set, folder, written(set, few)?))
}

fn store(folder: &Path, set: &str, writer: &Writer) -> io::Result<()> {
    fs::write(folder.join(format!("{set}.cases")), &writer.cases)?;
    fs::write(folder.join(format!("{set}.expected")), &writer.expected)
}
