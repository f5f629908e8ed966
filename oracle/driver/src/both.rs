//! A list of blocks and commits from its start on by the reading of docs/RULES.md and, where isdb-rs was built with the delay of
//! the sheet, by isdb-rs beside it, as far as it has a counterpart. The answers are the reading's; where isdb-rs has another
//! one, there is an error instead.

use crate::front::Rust;
use crate::lists::List;
use crate::outputs;
use crate::reading::{Asked, Block, Committed, Read, Reading};
use crate::state::State;
use std::fmt::Debug;
use std::io;

pub struct Both {
    list: List,
    rust: Option<Rust>,
}

impl Both {
    pub fn start(reading: &Reading) -> Self {
        Self {
            list: List::start(reading),
            rust: Rust::start(reading.sheet()),
        }
    }

    /// What the reading has accepted and made.
    pub fn list(&self) -> &List {
        &self.list
    }

    /// A block. isdb-rs has no output that is too short and refuses no block: it is given the pairs that the call takes.
    pub fn block(&mut self, reading: &Reading, values: &[i16], places: usize) -> io::Result<Block> {
        let block = self.list.block(reading, values, places);
        // a block may be given other banks than those in force, and isdb-rs may not
        self.rust
            .take_if(|rust| block.taken > 0 && !rust.has_banks_of(reading.sheet()));
        if let Some(rust) = &mut self.rust {
            let refusal = rust.refusal(reading);
            let (taken, refusal) = match outputs::taken(values.len(), places) {
                _ if !refusal.is_empty() => (0, refusal),
                Ok(taken) => (taken, refusal),
                Err(number) => (0, vec![number.into()]),
            };
            same("what refuses a block", &refusal, &block.refusal)?;
            same("the pairs taken", &[taken], &[block.taken])?;
            let made = rust.process(&values.as_chunks().0[..taken]);
            same("symbols", &made.symbols, &block.output)?;
            same("the clips of symbols", &made.clips, &block.symbol_clips)?;
        }
        Ok(block)
    }

    pub fn state(&self) -> io::Result<&State> {
        let state = self.list.state();
        if let Some(rust) = &self.rust {
            same("the state", &rust.state().numbers(), &state.numbers())?;
        }
        Ok(state)
    }

    pub fn read(&self, reading: &Reading) -> io::Result<Read> {
        let read = reading.read(self.list.state());
        if let Some(rust) = &self.rust {
            let refusal = rust.refusal(reading);
            let numbers = match refusal[..] {
                [] => rust.read(),
                _ => [0; 3],
            };
            same("what refuses a reading", &refusal, &read.refusal)?;
            same("what is read", &numbers, &read.numbers)?;
        }
        Ok(read)
    }

    /// Asking, of which isdb-rs knows nothing.
    pub fn ask(&self, reading: &Reading) -> Asked {
        reading.ask(self.list.state())
    }

    /// Whether isdb-rs, if it runs beside the reading, does so behind a commit of this sheet.
    pub fn can_follow(&self, reading: &Reading) -> bool {
        let rust = self.rust.as_ref();
        rust.is_none_or(|rust| rust.can_follow(reading.sheet()))
    }

    /// Committing. isdb-rs goes on where a start with the new sheet would have come to the same state.
    pub fn commit(&mut self, reading: &Reading, ticket: u64) -> io::Result<Committed> {
        let committed = self.list.commit(reading, ticket);
        if let Some(rust) = &self.rust
            && committed.refusal.is_empty()
        {
            self.rust = rust.followed(reading.sheet(), &self.list.pairs());
            self.state()?;
        }
        Ok(committed)
    }

    /// isdb-rs once more, on all values of a run under one sheet in one block: by how many calls they were taken has changed
    /// nothing.
    pub fn end(&self, reading: &Reading, values: &[i16]) -> io::Result<()> {
        let Some(mut whole) = Rust::start(reading.sheet()) else {
            return Ok(());
        };
        let made = whole.process(values.as_chunks().0);
        let clips = made.clips.iter().sum();
        same("all clips", &[clips], &[self.list.clips()])?;
        let (end, state) = (whole.state(), self.list.state());
        same("the end state", &end.numbers(), &state.numbers())
    }
}

/// Fails where the run by isdb-rs and the reading differ, and says in which number first.
fn same<T: PartialEq + Debug>(what: &str, rust: &[T], reading: &[T]) -> io::Result<()> {
    if rust == reading {
        return Ok(());
    }
    let at = rust.iter().zip(reading).take_while(|(a, b)| a == b).count();
    let (rust, reading) = (rust.get(at), reading.get(at));
    Err(io::Error::other(format!(
        "the run by isdb-rs and the reading of docs/RULES.md differ in {what}, number {at}: {rust:?} and {reading:?}"
    )))
}
