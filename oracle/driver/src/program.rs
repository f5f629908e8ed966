//! The symbol program over isdb-rs's front end: a sheet, its banks and pairs as text in, symbols as text out. Under a delay
//! other than isdb-rs's the reading of docs/RULES.md stands in for it.

use crate::front::{Front, numbers};
use crate::random::Random;
use crate::reading::SYMBOL;
use crate::sheet::{FIELDS, Sheet, joined};
use crate::{number, usage};
use isdb_frontend::fixed::Symbol;
use std::io::{self, BufRead, Write};

const LONGEST: usize = 1024;
const HEAD: u64 = 193;

#[derive(Default)]
pub struct Options {
    /// Write the end state too.
    state: bool,
    /// Hand the pairs over in blocks of random sizes.
    blocks: Option<Random>,
}

impl Options {
    pub fn read(flags: &[&str]) -> io::Result<Self> {
        match flags {
            [] => Ok(Self::default()),
            ["--state", rest @ ..] => Ok(Self {
                state: true,
                ..Self::read(rest)?
            }),
            ["--blocks", seed, rest @ ..] => Ok(Self {
                blocks: Some(Random::new(number(seed)?)),
                ..Self::read(rest)?
            }),
            [flag, ..] => Err(usage(&format!("{flag} is no flag of symbols"))),
        }
    }
}

/// Why a line is refused: 18 for its form or its field count, 19 for a value outside its type.
struct Refused(u8);

/// The lines of the input, counted from 1.
struct Lines<R> {
    input: R,
    line: Vec<u8>,
    count: u64,
}

impl<R: BufRead> Lines<R> {
    /// The next line's text without its LF; `None` at the end of the input.
    fn next(&mut self) -> io::Result<Option<Result<&str, Refused>>> {
        self.line.clear();
        let longest = LONGEST as u64 + 1;
        if io::Read::take(&mut self.input, longest).read_until(b'\n', &mut self.line)? == 0 {
            return Ok(None);
        }
        self.count += 1;
        Ok(Some(match self.line.split_last() {
            Some((b'\n', text)) => std::str::from_utf8(text).map_err(|_| Refused(18)),
            _ => Err(Refused(18)),
        }))
    }
}

/// A field's form: decimal digits, with one `-` before them or none, no leading zero and no −0.
fn is_decimal(field: &str) -> bool {
    let digits = field.strip_prefix('-').unwrap_or(field);
    !digits.is_empty()
        && digits.bytes().all(|b| b.is_ascii_digit())
        && (!digits.starts_with('0') || field == "0")
}

/// A line's fields: first the form and the count of all, then each value's type.
fn fields(text: &str, types: &[(i64, i64)]) -> Result<Vec<i64>, Refused> {
    let words: Vec<&str> = text.split(',').collect();
    if words.len() != types.len() || !words.iter().all(|w| is_decimal(w)) {
        return Err(Refused(18));
    }
    words
        .iter()
        .zip(types)
        .map(|(w, (lo, hi))| match w.parse::<i64>() {
            Ok(v) if (lo..=hi).contains(&&v) => Ok(v),
            _ => Err(Refused(19)),
        })
        .collect()
}

pub fn run(options: Options, input: impl BufRead, output: &mut impl Write) -> io::Result<()> {
    let mut lines = Lines {
        input,
        line: Vec::new(),
        count: 0,
    };
    let sheet = match read_sheet(&mut lines)? {
        Ok(sheet) => sheet,
        Err((number, line)) => return writeln!(output, "refused,{number},{line}"),
    };
    if let Some(number) = sheet.judge().first() {
        return writeln!(output, "refused,{number},0");
    }
    run_pairs(options, &sheet, &mut lines, output)
}

/// The sheet and its banks, or a refusal's number and line.
fn read_sheet<R: BufRead>(lines: &mut Lines<R>) -> io::Result<Result<Sheet, (u8, u64)>> {
    let mut sheet = Sheet::default();
    let mut types: Vec<(i64, i64)> = FIELDS.to_vec();
    while lines.count < HEAD {
        let read = lines
            .next()?
            .map(|text| text.and_then(|t| fields(t, &types)));
        let values = match read {
            None => return Ok(Err((20, lines.count + 1))),
            Some(Err(Refused(number))) => return Ok(Err((number, lines.count))),
            Some(Ok(values)) => values,
        };
        if lines.count == 1 {
            sheet = Sheet::of(&values);
            if sheet.taps % 2 != 0 || !(4..=64).contains(&sheet.taps) {
                return Ok(Err((1, 1)));
            }
            types = vec![(i32::MIN.into(), i32::MAX.into()); sheet.taps as usize];
        } else {
            let bank = &mut sheet.banks[(lines.count as usize - 2) / 64];
            bank.extend(values.iter().map(|v| *v as i32));
        }
    }
    Ok(Ok(sheet))
}

fn run_pairs<R: BufRead>(
    mut options: Options,
    sheet: &Sheet,
    lines: &mut Lines<R>,
    output: &mut impl Write,
) -> io::Result<()> {
    const PAIR: [(i64, i64); 2] = [(i16::MIN as i64, i16::MAX as i64); 2];
    let mut front = Front::start(sheet);
    let mut samples = 0u64;
    let mut block = Vec::new();
    let mut symbols = Vec::new();
    let refused = loop {
        match lines
            .next()?
            .map(|text| text.and_then(|t| fields(t, &PAIR)))
        {
            None => break None,
            Some(Err(Refused(number))) => break Some(number),
            Some(Ok(pair)) => block.push([pair[0] as i16, pair[1] as i16]),
        }
        samples += 1;
        let full = match &mut options.blocks {
            None => true,
            Some(random) => random.one_in(97),
        };
        if full {
            flush(&mut front, &mut block, &mut symbols, output)?;
        }
    };
    flush(&mut front, &mut block, &mut symbols, output)?;
    let state = front.state();
    match refused {
        Some(number) => writeln!(output, "refused,{number},{}", lines.count)?,
        None => writeln!(output, "end,{samples},{},{}", state.symbols, state.t_acc)?,
    }
    if options.state {
        state.write(sheet.taps, output)
    } else {
        Ok(())
    }
}

/// Runs the block and writes its symbols. `make bench` measures this as a plain program over isdb-rs, so isdb-rs's symbols are
/// written as they come, and nothing is kept of errors that no longer wait: the end state has no places for them.
fn flush(
    front: &mut Front,
    block: &mut Vec<[i16; 2]>,
    symbols: &mut Vec<Symbol>,
    output: &mut impl Write,
) -> io::Result<()> {
    match front {
        Front::Rust(rust) => {
            symbols.clear();
            rust.front.process(block, symbols);
            for symbol in symbols.iter() {
                writeln!(output, "{}", joined(&numbers(symbol)))?;
            }
        }
        Front::Read(run) => {
            for symbol in run.process(block).chunks(SYMBOL) {
                writeln!(output, "{}", joined(symbol))?;
            }
        }
    }
    block.clear();
    Ok(())
}
