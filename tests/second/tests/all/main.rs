//! All tests of the second program, one module for each subject.

mod also_run;
mod audit;
mod cases;
mod common;
mod damage;
mod figures;
mod generator;
mod histories;
mod printed_sheet;
mod refusals;
mod run_sheet;
mod traps;
