//! `make bench`: this front end beside the Rust one, in one run on the same inputs. What counts is the ratio, since times alone mean
//! nothing on a shared machine; each figure is the least of several rounds, in which the two take turns.

mod programs;

use archive_calls::{Sheet, State};
use huntelm::archive::{BLOCK, BLOCK_TAKEN, SYMBOL};
use isdb_frontend::fixed::{Frontend, Symbol};
use isdb_frontend::params::{Design, Params};
use oracle::sheet::Sheet as Fields;
use programs::Programs;
use std::hint::black_box;
use std::io;
use std::process::ExitCode;
use std::time::{Duration, Instant};

/// Rounds of each measurement, and pairs in a round.
const ROUNDS: usize = 9;
const PAIRS: usize = 1 << 18;

fn main() -> ExitCode {
    let words: Vec<String> = std::env::args().skip(1).collect();
    let [ours, theirs, input] = &words[..] else {
        eprintln!("bench SYMBOLS ORACLE INPUT: the two programs, and a file for what they read");
        return ExitCode::FAILURE;
    };
    let programs = Programs {
        ours,
        theirs,
        input,
    };
    match measure(&programs) {
        Ok(()) => ExitCode::SUCCESS,
        Err(e) => {
            eprintln!("bench: {e}");
            ExitCode::FAILURE
        }
    }
}

fn measure(programs: &Programs) -> io::Result<()> {
    println!(
        "ns a sample pair, ISDB-S at 40 MHz: isdb-rs, this front end, and how many times as fast it is"
    );
    println!(
        "{:>5} {:>7} {:>9} {:>9} {:>7}",
        "taps", "block", "isdb-rs", "here", "ratio"
    );
    for taps in [8, 32, 64] {
        for block in [4096, 64, 1] {
            let (theirs, ours) = block_times(&params(taps), block);
            row(taps, &block.to_string(), theirs, ours);
        }
    }
    println!("µs to judge a sheet");
    for taps in [8, 32, 64] {
        let (theirs, ours) = judge_times(&params(taps));
        row(taps, "judge", theirs / 1000.0, ours / 1000.0);
    }
    println!(
        "ms for a million pairs, text in and text out: a plain program over isdb-rs, and the symbol program"
    );
    let (theirs, ours) = programs.times(&params(32))?;
    row(32, "text", theirs, ours);
    Ok(())
}

fn row(taps: usize, what: &str, theirs: f64, ours: f64) {
    println!(
        "{taps:>5} {what:>7} {theirs:>9.2} {ours:>9.2} {:>7.2}",
        theirs / ours
    );
}

fn params(taps: usize) -> Params {
    let design = Design {
        taps,
        ..Design::new(40e6, 28.86e6, 0.35)
    };
    Params::design(&design).expect("a design of ISDB-S")
}

/// Noise, the same in every run.
fn noise(pairs: usize) -> Vec<i16> {
    let mut x = 0x2545_f491_4f6c_dd1d_u64;
    (0..2 * pairs)
        .map(|_| {
            x ^= x << 13;
            x ^= x >> 7;
            x ^= x << 17;
            (x >> 52) as i16 - 2048
        })
        .collect()
}

/// The least time of both in turns.
fn least(rounds: usize, mut theirs: impl FnMut(), mut ours: impl FnMut()) -> (Duration, Duration) {
    let timed = |work: &mut dyn FnMut()| {
        let start = Instant::now();
        work();
        start.elapsed()
    };
    let (mut a, mut b) = (Duration::MAX, Duration::MAX);
    for _ in 0..rounds {
        a = a.min(timed(&mut theirs));
        b = b.min(timed(&mut ours));
    }
    (a, b)
}

/// The same in nanoseconds a unit.
fn least_each(units: usize, theirs: impl FnMut(), ours: impl FnMut()) -> (f64, f64) {
    let (a, b) = least(ROUNDS, theirs, ours);
    let each = |d: Duration| d.as_secs_f64() * 1e9 / units as f64;
    (each(a), each(b))
}

fn block_times(p: &Params, block: usize) -> (f64, f64) {
    let pairs = if block == 1 { PAIRS / 8 } else { PAIRS };
    let values = noise(pairs);
    let samples: Vec<[i16; 2]> = values.chunks(2).map(|v| [v[0], v[1]]).collect();
    let mut front = Frontend::new(p.clone()).expect("an accepted sheet");
    let mut symbols: Vec<Symbol> = Vec::with_capacity(block);
    let sheet = Sheet::from(&Fields::designed(p));
    let mut state = State::zeros();
    assert_eq!(sheet.lent().start(state.lent()), 0);
    let mut out = vec![0; SYMBOL * block];
    let mut answer = [0; BLOCK];
    least_each(
        pairs,
        || {
            for x in samples.chunks(block) {
                symbols.clear();
                front.process(x, &mut symbols);
                black_box(&symbols);
            }
        },
        || {
            // Every block has enough places, so that it is taken whole.
            let mut left = &values[..];
            while !left.is_empty() {
                let x = &left[..left.len().min(2 * block)];
                let refused = sheet.lent().block(state.lent(), x, &mut out, &mut answer);
                assert_eq!(refused, 0);
                left = &left[2 * answer[BLOCK_TAKEN] as usize..];
                black_box(&out);
            }
        },
    )
}

fn judge_times(p: &Params) -> (f64, f64) {
    const TIMES: usize = 200;
    let sheet = Sheet::from(&Fields::designed(p));
    least_each(
        TIMES,
        || {
            for _ in 0..TIMES {
                black_box(black_box(p).validate()).expect("an accepted sheet");
            }
        },
        || {
            for _ in 0..TIMES {
                assert_eq!(black_box(&sheet).lent().judge(), 0);
            }
        },
    )
}
