//! `compare SEED SAMPLES`: this front end through the archive beside the reading of docs/RULES.md, on runs of so many samples in all, with no text in between;
//! and, under the delay that isdb-rs was built with, beside isdb-rs.
//! All places that a call is lent to write are looked at after it, and so are others around them.

mod calls;
mod floats;
mod lent;
mod rules;
mod run;
mod tally;

use oracle::random::Random;
use oracle::{generate, retunes};
use run::Run;
use std::process::ExitCode;
use tally::Tally;

fn main() -> ExitCode {
    let numbers: Result<Vec<u64>, _> = std::env::args().skip(1).map(|w| w.parse()).collect();
    let Ok(&[seed, samples]) = numbers.as_deref() else {
        eprintln!("compare SEED SAMPLES: two numbers");
        return ExitCode::FAILURE;
    };
    let mut tally = Tally::default();
    let mut r = Random::new(seed);
    let outstanding = oracle::floats::outstanding();
    while tally.samples < samples {
        one_run(&mut tally, &mut r);
        for _ in 0..20 {
            floats::samples(&mut tally, &mut r, &outstanding);
        }
        for _ in 0..3 {
            floats::designs(&mut tally, &mut r);
        }
    }
    tally.tell();
    ExitCode::SUCCESS
}

/// A sheet, a run on it, with retunes or under the one sheet, and changed states after it.
fn one_run(tally: &mut Tally, r: &mut Random) {
    let kind = r.pick(&["designed", "designed", "extreme", "small", "clipping"]);
    let is_retuned = r.one_in(2);
    let sheet = match is_retuned {
        true => retunes::sheet_with_samples(kind, r),
        false => generate::sheet_with_samples(kind, r),
    };
    let (fields, mut samples) = sheet.expect("a kind of sheet that there is");
    let pairs = r.pick(&[100, 2000, 10_000, 30_000]);
    let mut run = Run::start(fields, is_retuned, tally, r);
    run.go_on(pairs, &mut samples);
    run.change();
}
