//! Calls from a fresh start, written as rows with their answers. What isdb-rs answers is held against the reading of docs/RULES.md
//! before it is written (both.rs), and a difference ends the driver: no row is written that only one of the two stands for
//! where both have an answer.

use crate::both::Both;
use crate::lists::List;
use crate::outputs::Outputs;
use crate::random::Random;
use crate::reading::{Asked, Block, Reading, SYMBOL};
use crate::rows::Rows;
use std::io::{self, Write};

pub struct Run<'a, 'b, W> {
    rows: &'a mut Rows<'b, W>,
    both: Both,
}

impl<'a, 'b, W: Write> Run<'a, 'b, W> {
    pub fn start(reading: &Reading, rows: &'a mut Rows<'b, W>) -> io::Result<Self> {
        rows.sheet(reading.sheet())?;
        rows.started(reading.refusal())?;
        let both = Both::start(reading);
        let mut run = Self { rows, both };
        run.tell_state()?;
        Ok(run)
    }

    /// What was accepted and made so far.
    pub fn list(&self) -> &List {
        self.both.list()
    }

    /// Offers values under the sheet in force, and again what is left of them, until all are taken, with an odd block before some
    /// calls. Under a sheet that is refused nothing ever is taken.
    pub fn offer(
        &mut self,
        reading: &Reading,
        values: &[i16],
        outputs: Outputs,
        r: &mut Random,
    ) -> io::Result<()> {
        let mut rest = values;
        loop {
            if r.one_in(12) {
                self.odd_block(reading, rest, r)?;
            }
            let block = self.block(reading, rest, outputs.places(r, rest.len() / 2))?;
            if block.refusal == [9] {
                return Err(io::Error::other(
                    "RULES 5.3 does not hold of the reading: 9 under the sheet in force",
                ));
            }
            rest = &rest[2 * block.taken..];
            if rest.is_empty() || !reading.refusal().is_empty() {
                return Ok(());
            }
            if r.one_in(16) {
                self.tell_state()?;
            }
        }
    }

    /// Some of the values or all, without the last, so that one has no partner. The block is refused whole, though its output
    /// may be for some of the pairs before that one.
    fn odd_block(&mut self, reading: &Reading, values: &[i16], r: &mut Random) -> io::Result<()> {
        let some = values.len().min(2 * r.below(8) as usize);
        let mut odd = values[..r.pick(&[some, values.len()])].to_vec();
        if odd.pop().is_none() {
            odd.push(r.next() as i16);
        }
        let enough = SYMBOL * odd.len().div_ceil(2);
        self.block(reading, &odd, r.pick(&[0, 19, 20, 45, enough]))?;
        if r.one_in(2) {
            self.tell_state()?;
        }
        Ok(())
    }

    pub fn block(&mut self, reading: &Reading, values: &[i16], places: usize) -> io::Result<Block> {
        let block = self.both.block(reading, values, places)?;
        self.rows.sheet(reading.sheet())?;
        self.rows.values(values)?;
        self.rows.block(places, &block)?;
        Ok(block)
    }

    /// The state in force, as the answer that it is.
    pub fn tell_state(&mut self) -> io::Result<()> {
        self.rows.state(self.both.state()?)
    }

    pub fn read(&mut self, reading: &Reading) -> io::Result<()> {
        let read = self.both.read(reading)?;
        self.rows.sheet(reading.sheet())?;
        self.rows.read(&read)
    }

    pub fn ask(&mut self, reading: &Reading) -> io::Result<Asked> {
        let asked = self.both.ask(reading);
        self.rows.sheet(reading.sheet())?;
        self.rows.asked(&asked)?;
        Ok(asked)
    }

    /// Whether isdb-rs goes on beside the reading behind a commit of this sheet, if it runs beside it now.
    pub fn can_follow(&self, reading: &Reading) -> bool {
        self.both.can_follow(reading)
    }

    /// Commits, and says whether that was accepted.
    pub fn commit(&mut self, reading: &Reading, ticket: u64) -> io::Result<bool> {
        let committed = self.both.commit(reading, ticket)?;
        self.rows.sheet(reading.sheet())?;
        self.rows.committed(ticket, &committed)?;
        Ok(committed.refusal.is_empty())
    }

    /// The end of a run under one sheet on these values.
    pub fn end(&self, reading: &Reading, values: &[i16]) -> io::Result<()> {
        self.both.end(reading, values)
    }
}
