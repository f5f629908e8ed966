//! How many answers were compared, and how many differed.

use oracle::reading::Block;
use std::collections::BTreeMap;

/// Differences that are told one by one.
const TOLD: u64 = 10;

#[derive(Default)]
pub struct Tally {
    /// Whole answers of calls, each with all places that the call was lent.
    pub compared: u64,
    pub differed: u64,
    pub samples: u64,
    symbols: u64,
    /// Symbols of which nothing, and of which everything was clipped.
    unclipped: u64,
    all_clipped: u64,
    /// Blocks that took fewer pairs than they were offered.
    cut: u64,
    /// Commits that were accepted in a run.
    pub commits: u64,
    /// How many calls were refused by which number.
    refused: BTreeMap<u32, u64>,
    /// States that were changed between two calls.
    pub changed: u64,
}

impl Tally {
    pub fn answer(&mut self, what: &str, is_right: bool) {
        self.compared += 1;
        if is_right {
            return;
        }
        self.differed += 1;
        if self.differed <= TOLD {
            eprintln!(
                "answer {} differs: {what}, after {} samples",
                self.compared, self.samples
            );
        }
    }

    /// Counts a block that is not refused.
    pub fn block(&mut self, offered: usize, block: &Block) {
        let with = |clips: u64| block.symbol_clips.iter().filter(|n| **n == clips).count() as u64;
        self.samples += block.taken as u64;
        self.symbols += block.count() as u64;
        self.unclipped += with(0);
        self.all_clipped += with(12);
        self.cut += u64::from(block.taken < offered);
    }

    /// Counts a refusal; 0 is none.
    pub fn refusal(&mut self, number: u32) {
        if number != 0 {
            *self.refused.entry(number).or_default() += 1;
        }
    }

    pub fn tell(&self) {
        let of = |(number, calls): (&u32, &u64)| format!("{calls} by {number}");
        let refused: Vec<String> = self.refused.iter().map(of).collect();
        println!(
            "{} compared, {} differed; {} samples, {} symbols, {} of them with no clip and {} with 12, {} blocks cut by their output, {} commits accepted in \
             runs, {} changed states, calls refused {}",
            self.compared,
            self.differed,
            self.samples,
            self.symbols,
            self.unclipped,
            self.all_clipped,
            self.cut,
            self.commits,
            self.changed,
            refused.join(", ")
        );
    }
}
