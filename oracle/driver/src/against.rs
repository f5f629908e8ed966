//! The symbol program, run on many inputs and held against what isdb-rs makes of them (program.rs).

use crate::inputs::{self, REFUSALS};
use crate::program;
use crate::random::Random;
use std::collections::BTreeMap;
use std::io::{self, Write};
use std::process::{ChildStdin, Command, Output, Stdio};
use std::{fs, thread};

/// Runs the planned inputs and so many random ones. The first on which the two differ is kept in a file.
pub fn run(
    program: &str,
    seed: u64,
    count: u64,
    kept: &str,
    output: &mut impl Write,
) -> io::Result<()> {
    let mut r = Random::new(seed);
    let mut compared = Compared::default();
    for input in inputs::planned()? {
        compared.add(program, &input, kept, &mut r)?;
    }
    for _ in 0..count {
        let input = inputs::random(&mut r)?;
        compared.add(program, &input, kept, &mut r)?;
    }
    compared.tell(output)
}

#[derive(Default)]
struct Compared {
    inputs: u64,
    differed: u64,
    /// How many inputs ended in which way: 0 where all of it was taken, else the number of the refusal.
    ends: BTreeMap<u64, u64>,
}

impl Compared {
    fn add(&mut self, program: &str, input: &[u8], kept: &str, r: &mut Random) -> io::Result<()> {
        let mut right = Vec::new();
        program::run(program::Options::default(), input, &mut right)?;
        let printed = printed(program, input, r)?;
        self.inputs += 1;
        *self.ends.entry(number(&right)).or_default() += 1;
        // nothing is to go wrong but what the input has wrong: no message, and no end by a signal
        if printed.stdout == right && printed.stderr.is_empty() && printed.status.code().is_some() {
            return Ok(());
        }
        self.differed += 1;
        if self.differed == 1 {
            fs::write(kept, input)?;
            let (is, right) = (last(&printed.stdout), last(&right));
            let message = String::from_utf8_lossy(&printed.stderr);
            eprintln!(
                "{program} ends with '{is}' and not with '{right}', {}; {message}",
                printed.status
            );
            eprintln!("the input is kept in {kept}");
        }
        Ok(())
    }

    fn tell(&self, output: &mut impl Write) -> io::Result<()> {
        let (inputs, differed) = (self.inputs, self.differed);
        let of = |number: u64| self.ends.get(&number).copied().unwrap_or(0);
        if let Some(number) = REFUSALS.into_iter().find(|n| of(*n) == 0) {
            let message = format!("no input was refused by {number}");
            return Err(io::Error::other(message));
        }
        let refused: Vec<String> = REFUSALS.map(|n| format!("{} by {n}", of(n))).to_vec();
        let (taken, refused) = (of(0), refused.join(", "));
        writeln!(
            output,
            "{inputs} compared, {differed} differed; taken whole {taken}, refused {refused}"
        )
    }
}

/// What the program makes of an input that comes through a pipe, all at once or in pieces.
fn printed(program: &str, input: &[u8], r: &mut Random) -> io::Result<Output> {
    let mut child = Command::new(program)
        .stdin(Stdio::piped())
        .stdout(Stdio::piped())
        .stderr(Stdio::piped())
        .spawn()?;
    let piece = match r.below(16) {
        0 => 1,
        1 => 1 + r.below(100) as usize,
        2..=4 => 1 + r.below(5000) as usize,
        _ => input.len().max(1),
    };
    let stdin = child.stdin.take().expect("a pipe");
    thread::scope(|s| {
        let fed = s.spawn(move || feed(stdin, input, piece));
        let printed = child.wait_with_output()?;
        fed.join().expect("the input is fed")?;
        Ok(printed)
    })
}

/// A program that refuses a line reads no further, and its pipe is then broken.
fn feed(mut stdin: ChildStdin, input: &[u8], piece: usize) -> io::Result<()> {
    for part in input.chunks(piece) {
        match stdin.write_all(part) {
            Err(e) if e.kind() == io::ErrorKind::BrokenPipe => return Ok(()),
            done => done?,
        }
    }
    Ok(())
}

/// The last line of what was printed.
fn last(printed: &[u8]) -> String {
    let text = String::from_utf8_lossy(printed);
    text.lines()
        .last()
        .unwrap_or("")
        .chars()
        .take(160)
        .collect()
}

/// The number of the refusal with which a list ends, or 0.
fn number(printed: &[u8]) -> u64 {
    let line = last(printed);
    let refused = line
        .strip_prefix("refused,")
        .and_then(|t| t.split(',').next());
    refused.map_or(0, |n| n.parse().expect("a refusal's number"))
}
