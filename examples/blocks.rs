//! blocks FILE: the symbols of a recording, taken as a catalogue takes them, in blocks.
//!
//! The file is what the symbol program reads: a line with the 18 fields of a sheet, 64 rows of each of the banks h, g and k, then a pair I,Q a line, all in
//! decimal and separated by commas. It prints each symbol's 20 places and then the end line, as the symbol program does. What is wrong goes to standard
//! error, with the line, and the exit status is then 1.

use huntelm::archive::SHEET;
use huntelm::{Frontend, Params, Refusal, Symbol};
use std::env;
use std::error::Error;
use std::fmt::Display;
use std::fs::File;
use std::io::{self, BufRead, BufReader, BufWriter, Read, Write};
use std::process::ExitCode;

/// Pairs of a block.
const BLOCK: usize = 64;

/// Rows of a bank.
const ROWS: usize = 64;

/// Bytes of a line, with its end.
const LONGEST: u64 = 1025;

fn main() -> ExitCode {
    let words: Vec<String> = env::args().skip(1).collect();
    let [name] = words.as_slice() else {
        eprintln!("blocks FILE: prints the symbols of a recording");
        return ExitCode::FAILURE;
    };
    let mut output = BufWriter::new(io::stdout().lock());
    let done = run(name, &mut output);
    let written = output.flush().map_err(unwritten);
    match done.and(written) {
        Ok(()) => ExitCode::SUCCESS,
        Err(e) => {
            eprintln!("{e}");
            ExitCode::FAILURE
        }
    }
}

fn run(name: &str, output: &mut impl Write) -> Result<(), Box<dyn Error>> {
    let mut recording = Recording::open(name)?;
    let mut front = recording.front_end()?;
    let mut block = Vec::with_capacity(BLOCK);
    let mut symbols = Vec::with_capacity(BLOCK);
    loop {
        let more = recording.read_block(&mut block);
        // What came before a line that cannot be read is printed all the same.
        symbols.clear();
        // `process` takes the whole block, however long: it lends the archive places itself, and goes on from what each call has taken.
        front
            .process(&block, &mut symbols)
            .map_err(|refusal| recording.fault(refusal))?;
        for symbol in &symbols {
            print_symbol(symbol, output).map_err(unwritten)?;
        }
        if !more? {
            break;
        }
    }
    let (samples, count, t) = (front.samples(), front.symbols(), front.time());
    writeln!(output, "end,{samples},{count},{t}").map_err(unwritten)
}

/// An error of the output, with where it is.
fn unwritten(e: io::Error) -> Box<dyn Error> {
    format!("standard output: {e}").into()
}

fn print_symbol(symbol: &Symbol, output: &mut impl Write) -> io::Result<()> {
    let [first, rest @ ..] = symbol.places();
    write!(output, "{first}")?;
    for place in rest {
        write!(output, ",{place}")?;
    }
    writeln!(output)
}

/// A recording that is read line by line.
struct Recording {
    name: String,
    input: BufReader<File>,
    line: u64,
    text: String,
}

impl Recording {
    fn open(name: &str) -> Result<Self, Box<dyn Error>> {
        let file = File::open(name).map_err(|e| format!("{name}: {e}"))?;
        Ok(Self {
            name: name.into(),
            input: BufReader::new(file),
            line: 0,
            text: String::new(),
        })
    }

    /// What is wrong, with where it is.
    fn fault(&self, what: impl Display) -> Box<dyn Error> {
        format!("{}:{}: {what}", self.name, self.line).into()
    }

    /// A front end under the sheet with which the recording begins.
    fn front_end(&mut self) -> Result<Frontend, Box<dyn Error>> {
        let Some(fields) = self.read_line(SHEET)? else {
            return Err(self.fault("the file is empty"));
        };
        // With no banks yet their length is what is refused, unless the line itself is.
        let mut params = Params::from_places(&fields, vec![], vec![], vec![])
            .map_err(|refusal| self.fault(refusal))?;
        if let Err(refusal) = params.validate()
            && refusal != Refusal::BankLength
        {
            return Err(self.fault(refusal));
        }
        params.h = self.read_bank(params.taps as usize)?;
        params.g = self.read_bank(params.taps as usize)?;
        params.k = self.read_bank(params.taps as usize)?;
        Frontend::new(params)
            .map_err(|refusal| self.fault(format_args!("the sheet that ends here: {refusal}")))
    }

    fn read_bank(&mut self, taps: usize) -> Result<Vec<i32>, Box<dyn Error>> {
        let mut bank = Vec::with_capacity(ROWS * taps);
        for _ in 0..ROWS {
            let Some(row) = self.read_line(taps)? else {
                return Err(self.fault("the file ends before the last row of the banks"));
            };
            for coefficient in row {
                let coefficient = i32::try_from(coefficient)
                    .map_err(|_| self.fault("a coefficient is outside 32 bits"))?;
                bank.push(coefficient);
            }
        }
        Ok(bank)
    }

    /// Reads the pairs of a block in place of those that it has. Answers whether more may follow.
    fn read_block(&mut self, block: &mut Vec<[i16; 2]>) -> Result<bool, Box<dyn Error>> {
        block.clear();
        while block.len() < BLOCK {
            let Some(pair) = self.read_line(2)? else {
                return Ok(false);
            };
            let value =
                |n: i64| i16::try_from(n).map_err(|_| self.fault("a sample is outside 16 bits"));
            block.push([value(pair[0])?, value(pair[1])?]);
        }
        Ok(true)
    }

    /// The numbers of the next line, or nothing at the end of the file.
    fn read_line(&mut self, count: usize) -> Result<Option<Vec<i64>>, Box<dyn Error>> {
        self.line += 1;
        self.text.clear();
        let read = (&mut self.input).take(LONGEST).read_line(&mut self.text);
        if read.map_err(|e| self.fault(e))? == 0 {
            return Ok(None);
        }
        let numbers = self.text.strip_suffix('\n').and_then(numbers_of);
        match numbers {
            Some(numbers) if numbers.len() == count => Ok(Some(numbers)),
            _ => Err(self.fault(format_args!(
                "not {count} decimal numbers, separated by commas"
            ))),
        }
    }
}

fn numbers_of(text: &str) -> Option<Vec<i64>> {
    text.split(',').map(number_of).collect()
}

/// A decimal number: digits with no leading zero, and no -0. One that is too large for 64 bits stands for any that is outside every type.
fn number_of(field: &str) -> Option<i64> {
    let digits = field.strip_prefix('-').unwrap_or(field);
    let good = digits.bytes().all(|b| b.is_ascii_digit())
        && !digits.is_empty()
        && (!digits.starts_with('0') || field == "0");
    good.then(|| field.parse().unwrap_or(i64::MAX))
}
