//! Asks the Rust front end of isdb-rs: its answers, seeded inputs to ask it with, and a reading of docs/RULES.md for what it has no
//! answer to. The driver (main.rs) writes them as text; the comparison through the archive (../archive) uses them as they are.

pub mod against;
pub mod both;
pub mod calls;
pub mod clips;
pub mod delays;
pub mod design;
pub mod floats;
pub mod front;
pub mod generate;
pub mod inputs;
pub mod leaves;
pub mod lists;
pub mod offsets;
pub mod outputs;
pub mod path;
pub mod program;
pub mod random;
pub mod reading;
pub mod retunes;
pub mod rows;
pub mod run;
pub mod sheet;
pub mod state;
pub mod states;

use std::io;

/// A number on the command line.
pub fn number(word: &str) -> io::Result<u64> {
    word.parse()
        .map_err(|_| usage(&format!("{word} is not a number")))
}

pub fn usage(text: &str) -> io::Error {
    io::Error::new(io::ErrorKind::InvalidInput, text.to_string())
}
