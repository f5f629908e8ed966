//! Runs from a fresh start under one sheet, cut into blocks at random, and by outputs that are too short for a block (run.rs).

use crate::front::DELAY;
use crate::generate::{self, Samples};
use crate::outputs::Outputs;
use crate::random::Random;
use crate::reading::Reading;
use crate::rows::Rows;
use crate::run::Run;
use crate::sheet::DELAYS;
use std::io::{self, Write};

/// Pairs of a run; of a small or a clipping sheet's there are a tenth at most, so that they can be stored.
const PAIRS: u64 = 1200;

pub fn write(kind: &str, seed: u64, count: u64, output: &mut impl Write) -> io::Result<()> {
    let mut r = Random::new(seed);
    let mut rows = Rows::new(output);
    for _ in 0..count {
        let (mut sheet, mut samples) = generate::sheet_with_samples(kind, &mut r)?;
        // isdb-rs has the one delay that it was built with; a delay that is refused stays
        if DELAYS.contains(&sheet.delay) {
            sheet.delay = DELAY;
        }
        let reading = Reading::of(&sheet);
        let mut run = Run::start(&reading, &mut rows)?;
        let pairs = match kind {
            _ if !reading.refusal().is_empty() => 1 + r.below(30),
            "small" | "clipping" => PAIRS / 20 + r.below(PAIRS / 20 + 1),
            _ => PAIRS,
        };
        go_on(&mut run, &reading, pairs, &mut samples, &mut r)?;
    }
    Ok(())
}

/// Runs so many pairs, block after block.
fn go_on(
    run: &mut Run<impl Write>,
    reading: &Reading,
    pairs: u64,
    samples: &mut Samples,
    r: &mut Random,
) -> io::Result<()> {
    let mut all = Vec::new();
    let mut left = pairs;
    while left > 0 {
        let outputs = Outputs::any(r);
        let size = block_size(r, pairs, outputs).min(left);
        left -= size;
        let values: Vec<i16> = (0..size).flat_map(|_| samples.next(r)).collect();
        run.offer(reading, &values, outputs, r)?;
        if left == 0 || r.one_in(3) {
            run.tell_state()?;
            run.read(reading)?;
        }
        all.extend(values);
    }
    run.end(reading, &all)
}

/// Blocks of no pair and of one, short ones, some of up to a third of the run, and some that may be all that is left. Those that
/// are taken a pair or two at a time are all short.
fn block_size(r: &mut Random, pairs: u64, outputs: Outputs) -> u64 {
    if outputs == Outputs::Tiny {
        return r.below(31);
    }
    match r.below(8) {
        0 => 0,
        1 => 1,
        2 | 3 => r.below(30),
        4..=6 => r.below(pairs / 3 + 1),
        _ => r.below(2 * pairs),
    }
}
