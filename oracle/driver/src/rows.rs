//! Rows of calls, as crates/replay_calls reads them. A row begins with what it is: 0 the fields of a sheet, 1 to 3 its
//! banks h, g and k, 6 a state, 7 sample values, each in force until it is written again; and the calls with their answers:
//! 4 judging, 5 the offset of a period, 8 starting, 10 a block with 11 its output, 12 reading, 13 asking, 14 committing,
//! 9 the state in force.

use crate::reading::{Asked, Block, Committed, Read};
use crate::sheet::{Sheet, joined};
use crate::state::State;
use std::io::{self, Write};

/// The most numbers of a row 11.
const OUTPUT: usize = 8190;

pub struct Rows<'a, W> {
    output: &'a mut W,
    /// What the rows 0 to 3 said that were written last.
    fields: Vec<i64>,
    banks: [Vec<i32>; 3],
}

impl<'a, W: Write> Rows<'a, W> {
    pub fn new(output: &'a mut W) -> Self {
        Self {
            output,
            fields: Vec::new(),
            banks: Default::default(),
        }
    }

    /// The parts of a sheet that are not in force already.
    pub fn sheet(&mut self, sheet: &Sheet) -> io::Result<()> {
        if self.fields != sheet.fields() {
            self.fields = sheet.fields().to_vec();
            self.row(0, &joined(&sheet.fields()))?;
        }
        for (n, bank) in sheet.banks.iter().enumerate() {
            if self.banks[n] != *bank {
                self.banks[n].clone_from(bank);
                self.row(n + 1, &joined(bank))?;
            }
        }
        Ok(())
    }

    /// A row; one of no numbers has its kind alone.
    fn row(&mut self, kind: usize, numbers: &str) -> io::Result<()> {
        let comma = if numbers.is_empty() { "" } else { "," };
        writeln!(self.output, "{kind}{comma}{numbers}")
    }

    pub fn judged(&mut self, refusal: &[i64]) -> io::Result<()> {
        self.row(4, &answer(refusal))
    }

    pub fn offset(&mut self, period: u32, (parts, number): (i64, i64)) -> io::Result<()> {
        writeln!(self.output, "5,{period},{parts},{number}")
    }

    pub fn give(&mut self, state: &State) -> io::Result<()> {
        self.row(6, &joined(&state.numbers()))
    }

    pub fn values(&mut self, values: &[i16]) -> io::Result<()> {
        self.row(7, &joined(values))
    }

    pub fn started(&mut self, refusal: &[i64]) -> io::Result<()> {
        self.row(8, &answer(refusal))
    }

    pub fn state(&mut self, state: &State) -> io::Result<()> {
        self.row(9, &joined(&state.numbers()))
    }

    /// A block into so many places, and what it wrote there.
    pub fn block(&mut self, places: usize, block: &Block) -> io::Result<()> {
        let (symbols, taken, clips) = (block.count(), block.taken, block.clips());
        let refusal = answer(&block.refusal);
        writeln!(
            self.output,
            "10,{places},{symbols},{taken},{clips},{refusal}"
        )?;
        for (n, part) in block.output.chunks(OUTPUT).enumerate() {
            writeln!(self.output, "11,{},{}", n * OUTPUT, joined(part))?;
        }
        Ok(())
    }

    pub fn read(&mut self, read: &Read) -> io::Result<()> {
        let [period, gain, symbols] = read.numbers;
        let refusal = answer(&read.refusal);
        writeln!(self.output, "12,{period},{gain},{symbols},{refusal}")
    }

    pub fn asked(&mut self, asked: &Asked) -> io::Result<()> {
        self.ticket(13, asked.ticket, &asked.refusal)
    }

    /// Committing with a ticket.
    pub fn committed(&mut self, ticket: u64, committed: &Committed) -> io::Result<()> {
        self.ticket(14, ticket, &committed.refusal)
    }

    /// A ticket is written as the signed number that has its bits.
    fn ticket(&mut self, kind: usize, ticket: u64, refusal: &[i64]) -> io::Result<()> {
        let (ticket, refusal) = (ticket as i64, answer(refusal));
        writeln!(self.output, "{kind},{ticket},{refusal}")
    }
}

/// A refusal as rows have it: its number and what it carries, or 0 where nothing is refused.
fn answer(refusal: &[i64]) -> String {
    match refusal {
        [] => "0".to_string(),
        _ => joined(refusal),
    }
}
