//! Cases for the proved library, tried through its C header by tests/calls: sets of calls, each
//! with what has to come of it, from the second program's own calls.

mod also_run;
mod buffers;
mod damage;
mod edges;
mod every;
mod figures;
mod full;
mod histories;
mod printed;
mod random;
mod readings;
mod runs;
mod writer;

pub use writer::Writer;

/// A set's name and the function that writes it.
type Set = (&'static str, fn(&mut Writer));

pub const SETS: [Set; 11] = [
    ("figures", figures::write),
    ("also_run", also_run::write),
    ("readings", readings::write),
    ("edges", edges::write),
    ("histories", histories::write),
    ("full", full::write),
    ("damage", damage::write),
    ("random", random::write),
    ("every", every::write),
    ("buffers", buffers::write),
    ("runs", runs::write),
];

/// A set, or a small version of it; none if there is no set of this name.
pub fn written(name: &str, few: bool) -> Option<Writer> {
    let (_, write) = SETS.iter().find(|(other, _)| *other == name)?;
    let mut writer = Writer::new(few);
    write(&mut writer);
    Some(writer)
}
