//! The symbol program beside `oracle symbols`, which reads and prints the same text and has isdb-rs in between.

use crate::{least, noise};
use isdb_frontend::params::Params;
use oracle::sheet::Sheet;
use std::fs::File;
use std::io::{self, BufWriter, Write};
use std::process::{Command, Stdio};
use std::time::Duration;

const ROUNDS: usize = 5;
const PAIRS: usize = 1_000_000;

pub struct Programs<'a> {
    pub ours: &'a str,
    pub theirs: &'a str,
    /// The file that both read.
    pub input: &'a str,
}

impl Programs<'_> {
    /// Milliseconds from start to end of each. Both have to print the same list; while they are measured nobody reads it.
    pub fn times(&self, p: &Params) -> io::Result<(f64, f64)> {
        self.write_input(p)?;
        let printed = |mut program: Command| -> io::Result<Vec<u8>> {
            program.stdin(File::open(self.input)?);
            let name = program.get_program().display().to_string();
            let done = program.output();
            Ok(done.map_err(|e| told(&name, e))?.stdout)
        };
        let list = printed(self.ours())?;
        if !is_whole(&list) {
            let message = format!(
                "{} does not print a whole list of {}",
                self.ours, self.input
            );
            return Err(io::Error::other(message));
        }
        if list != printed(self.theirs())? {
            let message = format!("{} and {} print different lists", self.ours, self.theirs);
            return Err(io::Error::other(message));
        }
        drop(list);
        let run = |mut program: Command| {
            let input = File::open(self.input).expect("the input that was written");
            let done = program.stdin(input).stdout(Stdio::null()).status();
            assert!(done.expect("a program that runs").success());
        };
        let (theirs, ours) = least(ROUNDS, || run(self.theirs()), || run(self.ours()));
        let ms = |d: Duration| d.as_secs_f64() * 1e3;
        Ok((ms(theirs), ms(ours)))
    }

    fn ours(&self) -> Command {
        Command::new(self.ours)
    }

    fn theirs(&self) -> Command {
        let mut program = Command::new(self.theirs);
        program.arg("symbols");
        program
    }

    fn write_input(&self, p: &Params) -> io::Result<()> {
        let file = File::create(self.input).map_err(|e| told(self.input, e))?;
        let mut file = BufWriter::new(file);
        Sheet::designed(p).write_rows(&mut file)?;
        for pair in noise(PAIRS).chunks(2) {
            writeln!(file, "{},{}", pair[0], pair[1])?;
        }
        file.flush()
    }
}

/// An error with what it befell.
fn told(name: &str, e: io::Error) -> io::Error {
    io::Error::new(e.kind(), format!("{name}: {e}"))
}

/// Whether a list's last line says that it is whole.
fn is_whole(list: &[u8]) -> bool {
    let last = list.split(|b| *b == b'\n').rev().nth(1);
    last.is_some_and(|line| line.starts_with(b"end,"))
}
