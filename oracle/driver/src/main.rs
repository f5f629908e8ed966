//! Asks the Rust front end of isdb-rs, text in and text out. README.md beside this folder has the formats.

use oracle::{
    against, calls, delays, design, floats, generate, leaves, offsets, path, program, retunes,
    sheet, states,
};
use oracle::{number, usage};
use std::io::{self, BufRead, BufWriter, Write};
use std::process::ExitCode;

const USAGE: &str = "\
oracle: asks the Rust front end of isdb-rs

  oracle wheel                        the cosine table, a line an entry: k,value
  oracle leaves SEED COUNT            the cosine table and calls of the arithmetic, with what each gives
  oracle validate                     standard input: sheets, 4 lines each; each comes back with its answer
  oracle symbols [--state] [--blocks SEED]
                                      the symbol program: standard input to standard output; with --state the
                                      end state follows, with --blocks the pairs go in by blocks of random sizes
  oracle design                       standard input: designs, a line each; the registers or the refusal of each
  oracle input                        standard input: f32 by their bits in hexadecimal; the sample of each
  oracle sheets KIND SEED COUNT       sheets for `validate`
  oracle calls KIND SEED COUNT        sheets with what judging them and offsets of periods answer, for replay_calls
  oracle offsets SEED COUNT           accepted sheets, each with 64 offsets, many of them ties, for replay_calls
  oracle delays SEED                  a small sheet with each delay that its field can hold, for replay_calls
  oracle path KIND SEED COUNT         sheets, each run from its start in blocks, for replay_calls
  oracle retunes KIND SEED COUNT      sheets, each run from its start in blocks with other sheets asked for and committed
                                      between them, for replay_calls
  oracle states KIND SEED COUNT       states that no run reaches, with what a block, a reading and a retune make of
                                      them, for replay_calls
  oracle samples STEP                 one of each STEP f32 by their bits, and all that stand out, with the samples
                                      that they become, for replay_floats
  oracle floats KIND SEED COUNT       answers on floats, for replay_floats; KIND is samples, designs, sheets or
                                      small, sheets of few taps
  oracle recording KIND SEED PAIRS    an input of the symbol program
  oracle against PROGRAM SEED COUNT FILE
                                      runs the symbol program on all planned inputs and COUNT random ones, and holds
                                      what it prints against `symbols`; FILE keeps the first input that differs
  oracle designs SEED COUNT           designs for `design`

KIND is designed, extreme, small, clipping, refused or mixed for sheets, and designed, extreme or isdb-s for a
recording.
Sheets of `path` and `retunes` have the delay that isdb-rs was built with, recordings and designs one of 24, and
others any.
";

fn main() -> ExitCode {
    let words: Vec<String> = std::env::args().skip(1).collect();
    let words: Vec<&str> = words.iter().map(String::as_str).collect();
    let input = io::stdin().lock();
    let mut output = BufWriter::new(io::stdout().lock());
    match run(&words, input, &mut output).and_then(|()| output.flush()) {
        Ok(()) => ExitCode::SUCCESS,
        Err(e) if e.kind() == io::ErrorKind::BrokenPipe => ExitCode::SUCCESS,
        Err(e) => {
            eprintln!("{e}");
            ExitCode::FAILURE
        }
    }
}

fn run(words: &[&str], input: impl BufRead, output: &mut impl Write) -> io::Result<()> {
    match *words {
        ["wheel"] => wheel(output),
        ["leaves", seed, count] => leaves::write(number(seed)?, number(count)?, output),
        ["validate"] => sheet::validate(input, output),
        ["symbols", ref flags @ ..] => program::run(program::Options::read(flags)?, input, output),
        ["design"] => design::registers(input, output),
        ["input"] => design::samples(input, output),
        ["sheets", kind, seed, count] => {
            generate::sheets(kind, number(seed)?, number(count)?, output)
        }
        ["calls", kind, seed, count] => calls::write(kind, number(seed)?, number(count)?, output),
        ["offsets", seed, count] => offsets::write(number(seed)?, number(count)?, output),
        ["delays", seed] => delays::write(number(seed)?, output),
        ["path", kind, seed, count] => path::write(kind, number(seed)?, number(count)?, output),
        ["retunes", kind, seed, count] => {
            retunes::write(kind, number(seed)?, number(count)?, output)
        }
        ["states", kind, seed, count] => states::write(kind, number(seed)?, number(count)?, output),
        ["samples", step] => floats::samples(number(step)?, output),
        ["floats", kind, seed, count] => floats::write(kind, number(seed)?, number(count)?, output),
        ["recording", kind, seed, pairs] => {
            generate::recording(kind, number(seed)?, number(pairs)?, output)
        }
        ["against", program, seed, count, file] => {
            against::run(program, number(seed)?, number(count)?, file, output)
        }
        ["designs", seed, count] => generate::designs(number(seed)?, number(count)?, output),
        _ => Err(usage(USAGE)),
    }
}

fn wheel(output: &mut impl Write) -> io::Result<()> {
    for (k, w) in isdb_frontend::tables::cos_table().iter().enumerate() {
        writeln!(output, "{k},{w}")?;
    }
    Ok(())
}
