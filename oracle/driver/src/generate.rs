//! Seeded sheets, recordings and designs: designed ones, accepted ones at the ends of every range, and refused ones
//! around every boundary.

use crate::front;
use crate::random::Random;
use crate::sheet::{DELAYS, DESIGN_DELAY, Sheet};
use crate::{design, usage};
use isdb_frontend::params::{Design, PHASES, Params, TED_TAPS, ted_tap};
use isdb_frontend::tables::rrc;
use std::f64::consts::{PI, TAU};
use std::io::{self, Write};

/// The largest sum of a row's magnitudes.
const ROW: i64 = (1 << 17) - 1;

pub fn sheets(kind: &str, seed: u64, count: u64, output: &mut impl Write) -> io::Result<()> {
    let mut r = Random::new(seed);
    for _ in 0..count {
        sheet(kind, &mut r)?.write(output)?;
    }
    Ok(())
}

/// A sheet of a kind, of any delay.
pub fn sheet(kind: &str, r: &mut Random) -> io::Result<Sheet> {
    let kind = one_kind(kind, r);
    let mut sheet = match kind {
        "designed" => designed(r).0,
        "extreme" => extreme(r),
        "small" => small(r),
        "clipping" => clipping(r).0,
        "refused" if r.one_in(8) => designed(r).0,
        "refused" => extreme(r),
        _ => return Err(usage(&format!("{kind} is no kind of sheet"))),
    };
    sheet.delay = any_delay(r);
    if kind == "refused" {
        sheet = spoiled(r, sheet);
    }
    Ok(sheet)
}

/// The kind itself, or one of those that are mixed.
fn one_kind<'a>(kind: &'a str, r: &mut Random) -> &'a str {
    match kind {
        "mixed" => r.pick(&["designed", "extreme", "refused"]),
        _ => kind,
    }
}

/// A sheet with samples to run it on: three designed ones in four have a signal of their design, clipping ones samples of
/// their own, all others noise of the full range. Half are given the delay of isdb-rs, which runs no other, and the rest any;
/// a delay that is refused stays.
pub fn sheet_with_samples(kind: &str, r: &mut Random) -> io::Result<(Sheet, Samples)> {
    let (mut sheet, samples) = match one_kind(kind, r) {
        "designed" if !r.one_in(4) => designed_with_signal(r),
        "clipping" => clipping(r),
        kind => (sheet(kind, r)?, Samples::noise()),
    };
    if DELAYS.contains(&sheet.delay) {
        sheet.delay = match r.one_in(2) {
            true => front::DELAY,
            false => any_delay(r),
        };
    }
    Ok((sheet, samples))
}

fn designed_with_signal(r: &mut Random) -> (Sheet, Samples) {
    let (sheet, d) = designed(r);
    (sheet, Samples::signal(r, &d))
}

/// A sheet, its banks and pairs, as the symbol program reads them.
pub fn recording(kind: &str, seed: u64, pairs: u64, output: &mut impl Write) -> io::Result<()> {
    let mut r = Random::new(seed);
    let (sheet, mut samples) = match kind {
        "designed" => designed_with_signal(&mut r),
        "extreme" => (extreme(&mut r), Samples::noise()),
        "isdb-s" => isdb_s(),
        _ => return Err(usage(&format!("{kind} is no kind of recording"))),
    };
    sheet.write_rows(output)?;
    for _ in 0..pairs {
        let [i, q] = samples.next(&mut r);
        writeln!(output, "{i},{q}")?;
    }
    Ok(())
}

/// An ISDB-S carrier as a receiver of 12 bits records it, at half its range, off its frequency and its symbols 60 parts in a
/// million slow. The design removes the first, and the loop has to find the second; it is wide, since recordings may be short.
fn isdb_s() -> (Sheet, Samples) {
    let d = Design {
        carrier_offset: 312.5e3,
        taps: 16,
        loop_bandwidth: 5e-4,
        bits: 6,
        agc_rms: 0.125,
        ..Design::new(40e6, 28.86e6, 0.35)
    };
    let p = Params::design(&d).expect("a design within all bounds");
    let samples = Samples::Signal {
        sps: d.sps() * (1.0 + 60e-6),
        roll_off: d.roll_off,
        turn: d.carrier_offset / d.sample_rate * TAU,
        amplitude: 1000.0,
        noise: 120.0,
        first: -2 * SPAN,
        symbols: Vec::new(),
        n: 0,
    };
    (Sheet::designed(&p), samples)
}

pub fn designs(seed: u64, count: u64, output: &mut impl Write) -> io::Result<()> {
    let mut r = Random::new(seed);
    for _ in 0..count {
        writeln!(output, "{}", design::text(&any_design(&mut r)))?;
    }
    Ok(())
}

// ---- designs

/// A design as a receiver has it: ISDB-S, ISDB-S3 or another carrier.
pub fn plausible(r: &mut Random) -> Design {
    let mut d = match r.below(3) {
        0 => Design::new(40e6, 28.86e6, 0.35),
        1 => Design::new(r.pick(&[40e6, 50e6, 61.44e6]), 33.7561e6, 0.03),
        _ => {
            let symbol_rate = (1.0 + 40.0 * r.unit()) * 1e6;
            let sps = 1.0625 + 2.9 * r.unit();
            Design::new(
                symbol_rate * sps,
                symbol_rate,
                r.pick(&[0.05, 0.1, 0.2, 0.25, 0.35, 0.5]),
            )
        }
    };
    d.taps = 4 + 2 * r.below(31) as usize;
    if r.one_in(2) {
        d.taps = r.pick(&[8, 16, 32, 64]);
    }
    d.carrier_offset = (r.unit() - 0.5) * d.symbol_rate / 4.0;
    if r.one_in(3) {
        d.trim = r.unit() - 0.5;
    }
    d.loop_bandwidth = r.pick(&[2e-4, 1e-3, 5e-6, 2e-5]);
    d.bits = r.between(2, 8) as u8;
    d.agc_rms = 0.05 + 0.4 * r.unit();
    d.clip = 1.0 + 3.0 * r.unit();
    d.block_log2 = r.between(8, 15) as u8;
    d
}

/// A design in which any field may be strange: at a boundary or a bit beside it, infinite, or no number at all.
pub fn any_design(r: &mut Random) -> Design {
    let mut d = plausible(r);
    for _ in 0..r.below(3) {
        match r.below(8) {
            0 => d.sample_rate = strange(r, d.sample_rate),
            1 => d.symbol_rate = strange(r, d.symbol_rate),
            2 => d.carrier_offset = strange(r, d.carrier_offset),
            3 => d.trim = strange(r, 0.5),
            4 => d.agc_rms = strange(r, d.agc_rms),
            5 => d.taps = r.pick(&[0, 2, 3, 4, 5, 63, 64, 65, 66, 1000]),
            6 => d.bits = r.pick(&[0, 1, 2, 8, 9, 255]),
            _ => {
                // a ratio next to an end of what is allowed, or one whose product with 2^24 is next to a half
                let sps = r.pick(&[1.0625, 4.0, 3.95, 2.0, 1.0 + 0.5 / 16777216.0]);
                d.symbol_rate = r.pick(&[1.0, 0.5, 3.0]);
                d.sample_rate = beside(r, sps * d.symbol_rate);
            }
        }
    }
    d
}

fn strange(r: &mut Random, usual: f64) -> f64 {
    match r.below(10) {
        0 => f64::NAN,
        1 => f64::INFINITY,
        2 => f64::NEG_INFINITY,
        3 => -0.0,
        4 => 0.0,
        5 => f64::from_bits(r.below(1 << 52)),
        6 => f64::from_bits(r.next()),
        7 => -usual,
        8 => usual * 2f64.powi(r.between(-80, 80) as i32),
        _ => beside(r, usual),
    }
}

/// x, or the float just above or below it.
pub fn beside(r: &mut Random, x: f64) -> f64 {
    f64::from_bits(x.to_bits().wrapping_add_signed(r.between(-1, 1)))
}

// ---- sheets

fn designed(r: &mut Random) -> (Sheet, Design) {
    loop {
        let d = plausible(r);
        if let Ok(p) = Params::design(&d) {
            let sheet = Sheet::designed(&p);
            if sheet.judge().is_empty() {
                return (sheet, d);
            }
        }
    }
}

/// An accepted sheet with each field at an end of its range, or anywhere within. Only the delay is 24, as recordings have it;
/// `sheet` gives it another.
fn extreme(r: &mut Random) -> Sheet {
    let taps = 4 + 2 * r.below(31) as u32;
    let taps = if r.one_in(2) {
        r.pick(&[4, 6, 8, 10, 62, 64])
    } else {
        taps
    };
    extreme_of(r, taps)
}

/// One of few taps.
fn small(r: &mut Random) -> Sheet {
    let taps = r.pick(&[4, 6, 8, 10]);
    extreme_of(r, taps)
}

fn extreme_of(r: &mut Random, taps: u32) -> Sheet {
    let (low, high) = ((1i64 << 24) + 1, (1i64 << 26) - 1);
    let mut period = [ends(r, low, high), ends(r, low, high), ends(r, low, high)];
    period.sort_unstable();
    let sheet = Sheet {
        taps,
        nco_step: ends(r, i32::MIN.into(), i32::MAX.into()) as i32,
        period_min: period[0] as u32,
        period_nominal: period[1] as u32,
        period_max: period[2] as u32,
        ted_shift: ends(r, 0, 30) as u8,
        kp: ends(r, i16::MIN.into(), i16::MAX.into()) as i16,
        kp_shift: ends(r, 0, 40) as u8,
        ki: ends(r, i16::MIN.into(), i16::MAX.into()) as i16,
        ki_shift: ends(r, 0, 40) as u8,
        integrator_max: ends(r, 0, (1 << 22) - 1) as i32,
        agc_init: ends(r, 0, (1 << 24) - 1) as u32,
        agc_target: ends(r, 0, u32::MAX.into()) as u32,
        agc_shift: ends(r, 0, 63) as u8,
        bits: ends(r, 2, 8) as u8,
        q_shift: ends(r, 0, 15) as u8,
        block_log2: ends(r, 8, 15) as u8,
        delay: DESIGN_DELAY,
        banks: std::array::from_fn(|bank| extreme_bank(r, taps as usize, bank < 2)),
    };
    debug_assert!(sheet.judge().is_empty());
    sheet
}

/// A delay that is accepted.
pub fn any_delay(r: &mut Random) -> u8 {
    ends(r, (*DELAYS.start()).into(), (*DELAYS.end()).into()) as u8
}

/// An end of the range, a neighbour of it, or any number within.
pub fn ends(r: &mut Random, low: i64, high: i64) -> i64 {
    match r.below(6) {
        0 => low,
        1 => high,
        2 => (low + 1).min(high),
        3 => (high - 1).max(low),
        _ => r.between(low, high),
    }
}

fn extreme_bank(r: &mut Random, taps: usize, detector: bool) -> Vec<i32> {
    let mut bank = Vec::with_capacity(PHASES * taps);
    for _ in 0..PHASES {
        bank.extend(extreme_row(r, taps, detector));
    }
    bank
}

/// Where a row may have coefficients other than 0.
fn allowed_taps(taps: usize, detector: bool) -> Vec<usize> {
    (0..taps)
        .filter(|t| !detector || ted_tap(*t, taps))
        .collect()
}

/// A row whose magnitudes sum to the most that is allowed, or to less; of a detector's bank on its own taps only.
fn extreme_row(r: &mut Random, taps: usize, detector: bool) -> Vec<i32> {
    let allowed = allowed_taps(taps, detector);
    let mut row = vec![0i32; taps];
    let mut left = if r.one_in(3) { r.between(0, ROW) } else { ROW };
    match r.below(4) {
        0 => row[r.pick(&allowed)] = left as i32,
        1 => {
            for t in &allowed {
                row[*t] = (left / allowed.len() as i64) as i32;
            }
        }
        _ => {
            for t in &allowed {
                let part = r.between(0, left);
                row[*t] = part as i32;
                left -= part;
            }
        }
    }
    for c in &mut row {
        if r.one_in(2) {
            *c = -*c;
        }
    }
    row
}

/// A small sheet with samples that it brings to the ends of 16 bits: to 32767 and -32768 themselves, to what is just past them,
/// and to the halves between, where rounding says whether a number is clipped. All rows have the same weight, in halves of
/// what passes a sample on as it is, and the gain stays; so one size of samples brings what the filters give to an end, or,
/// at a gain above 1, what scaling makes of it.
fn clipping(r: &mut Random) -> (Sheet, Samples) {
    let halves = r.between(3, 15);
    let one = 1024;
    let more = r.between(one, 4 * one);
    let gain = r.pick(&[one, one, one + 1, more, more, 64 * one - 1]);
    let taps = r.pick(&[4, 6, 8, 10]);
    let sheet = Sheet {
        nco_step: r.pick(&[0, 1 << 30, -1 << 30, i32::MIN]),
        agc_init: (gain << 8) as u32,
        // above any power, so that the error is never below zero, and shifted to nothing
        agc_target: 1 << 20,
        agc_shift: 63,
        banks: std::array::from_fn(|bank| weighty_bank(r, taps as usize, bank < 2, halves)),
        ..extreme_of(r, taps)
    };
    debug_assert!(sheet.judge().is_empty());
    let scale = halves * r.pick(&[one, gain]);
    let level = ((1 << 16) * one + scale / 2) / scale;
    (sheet, Samples::level(level))
}

/// Rows of so many halves, all of one sign; of a detector's bank on its own taps only.
fn weighty_bank(r: &mut Random, taps: usize, detector: bool, halves: i64) -> Vec<i32> {
    let allowed = allowed_taps(taps, detector);
    let mut bank = vec![0; PHASES * taps];
    for row in bank.chunks_mut(taps) {
        let half = r.pick(&[1 << 13, -(1 << 13)]);
        for _ in 0..halves {
            row[r.pick(&allowed)] += half;
        }
    }
    bank
}

/// The sheet with one fault or several, each next to the boundary that it breaks. A few are accepted after all: the
/// boundary itself is among the values.
pub fn spoiled(r: &mut Random, mut sheet: Sheet) -> Sheet {
    if sheet.judge().first().is_some_and(|number| *number <= 2) {
        return sheet;
    }
    if r.one_in(12) {
        sheet.taps = r.pick(&[0, 1, 2, 3, 5, 7, 63, 65, 66]);
        let taps = sheet.taps as usize;
        sheet.banks = std::array::from_fn(|_| vec![0; PHASES * taps]);
        return sheet;
    }
    for _ in 0..1 + r.below(3) {
        fault(r, &mut sheet);
    }
    if r.one_in(12) {
        wrong_length(r, &mut sheet);
    }
    sheet
}

/// A bank of 63 or 65 rows, or with one number too many. (One too few is a short last row for isdb-rs, which tells it
/// after the faults of the rows before it.)
fn wrong_length(r: &mut Random, sheet: &mut Sheet) {
    let taps = sheet.taps as usize;
    let bank = &mut sheet.banks[r.below(3) as usize];
    bank.resize(
        r.pick(&[(PHASES - 1) * taps, (PHASES + 1) * taps, PHASES * taps + 1]),
        0,
    );
}

fn fault(r: &mut Random, sheet: &mut Sheet) {
    let taps = sheet.taps as usize;
    let (one, four) = (1u32 << 24, 1u32 << 26);
    match r.below(9) {
        0 => {
            let (bank, at) = (
                r.below(3) as usize,
                r.below((PHASES * taps) as u64) as usize,
            );
            sheet.banks[bank][at] = r.pick(&[131071, 131072, -131072, -131073, i32::MAX, i32::MIN]);
        }
        1 => {
            let (bank, row) = (r.below(3) as usize, r.below(PHASES as u64) as usize);
            let row = &mut sheet.banks[bank][row * taps..(row + 1) * taps];
            let detector = taps.saturating_sub(TED_TAPS) / 2;
            row.fill(0);
            row[detector] = (ROW - 2) as i32;
            row[detector + 1] = r.pick(&[1, 2, 3, 4, -2, -3]);
        }
        2 => {
            let (bank, row, tap) = (
                r.below(2) as usize,
                r.below(PHASES as u64) as usize,
                r.below(taps as u64) as usize,
            );
            sheet.banks[bank][row * taps + tap] = r.pick(&[1, -1]);
        }
        3 => {
            sheet.period_min = r.pick(&[
                0,
                one - 1,
                one,
                one + 1,
                sheet.period_nominal,
                sheet.period_nominal.wrapping_add(1),
            ])
        }
        4 => {
            sheet.period_max = r.pick(&[
                four - 1,
                four,
                four + 1,
                u32::MAX,
                sheet.period_nominal,
                sheet.period_nominal.wrapping_sub(1),
            ])
        }
        5 => {
            sheet.period_nominal = r.pick(&[
                sheet.period_min,
                sheet.period_min.wrapping_sub(1),
                sheet.period_max,
                sheet.period_max.wrapping_add(1),
            ])
        }
        6 => sheet.agc_shift = r.pick(&[63, 64, 255]),
        7 => {
            sheet.delay = r.pick(&[0, 0, 1, 24, 25, 25, 26, 64, 254, 255]);
            // judged just before the delay, so that their order shows
            if r.one_in(3) {
                sheet.agc_shift = r.pick(&[63, 64, 255]);
            }
        }
        _ => match r.below(8) {
            0 => sheet.bits = r.pick(&[0, 1, 2, 8, 9, 255]),
            1 => sheet.q_shift = r.pick(&[15, 16, 255]),
            2 => sheet.block_log2 = r.pick(&[0, 7, 8, 15, 16, 255]),
            3 => sheet.agc_init = r.pick(&[one - 1, one, u32::MAX]),
            4 => {
                sheet.integrator_max = r.pick(&[i32::MIN, -1, 0, (1 << 22) - 1, 1 << 22, i32::MAX])
            }
            5 => sheet.ted_shift = r.pick(&[30, 31, 255]),
            6 => sheet.kp_shift = r.pick(&[40, 41, 255]),
            _ => sheet.ki_shift = r.pick(&[40, 41, 255]),
        },
    }
}

// ---- samples

pub enum Samples {
    /// Random PSK symbols, shaped by the root-raised cosine at a rate a little off the design's, turning at the
    /// design's offset, with noise.
    Signal {
        sps: f64,
        roll_off: f64,
        turn: f64,
        amplitude: f64,
        noise: f64,
        first: i64,
        symbols: Vec<[f64; 2]>,
        n: u64,
    },
    /// Runs of full-range noise, of one value, and of the two extremes in turn.
    Noise {
        run: u64,
        kind: u64,
        value: [i16; 2],
    },
    /// Runs of one size, with a sign for each component, or of nothing, off that by one at most.
    Level {
        level: i64,
        run: u64,
        about: [i64; 2],
    },
}

/// Symbols to each side that a sample is made of.
const SPAN: i64 = 10;

impl Samples {
    fn signal(r: &mut Random, d: &Design) -> Self {
        Self::Signal {
            sps: d.sps() * (1.0 + (r.unit() - 0.5) * 4e-4),
            roll_off: d.roll_off,
            turn: d.carrier_offset / d.sample_rate * TAU,
            amplitude: 50.0 + 1500.0 * r.unit(),
            noise: 100.0 * r.unit(),
            first: -2 * SPAN,
            symbols: Vec::new(),
            n: 0,
        }
    }

    fn noise() -> Self {
        Self::Noise {
            run: 0,
            kind: 0,
            value: [0, 0],
        }
    }

    fn level(level: i64) -> Self {
        Self::Level {
            level,
            run: 0,
            about: [0, 0],
        }
    }

    pub fn next(&mut self, r: &mut Random) -> [i16; 2] {
        match self {
            Self::Signal {
                sps,
                roll_off,
                turn,
                amplitude,
                noise,
                first,
                symbols,
                n,
            } => {
                let at = *n as f64 / *sps;
                let (low, high) = (at.floor() as i64 - SPAN, at.floor() as i64 + SPAN);
                while *first + (symbols.len() as i64) <= high {
                    let angle = PI / 4.0 * r.below(8) as f64;
                    symbols.push([angle.cos(), angle.sin()]);
                }
                while *first < low {
                    symbols.remove(0);
                    *first += 1;
                }
                let (mut re, mut im) = (0.0, 0.0);
                for (k, s) in symbols.iter().enumerate() {
                    let w = rrc(at - (*first + k as i64) as f64, *roll_off);
                    re += s[0] * w;
                    im += s[1] * w;
                }
                let (sin, cos) = (*turn * *n as f64).sin_cos();
                *n += 1;
                let mut part = |x: f64| (x * *amplitude + (r.unit() - 0.5) * *noise).round() as i16;
                [part(re * cos - im * sin), part(re * sin + im * cos)]
            }
            Self::Noise { run, kind, value } => {
                if *run == 0 {
                    (*run, *kind) = (1 + r.below(200), r.below(4));
                    *value = [r.next() as i16, r.next() as i16];
                }
                *run -= 1;
                match kind {
                    0 => *value,
                    1 => [r.pick(&[i16::MIN, i16::MAX]), r.pick(&[i16::MIN, i16::MAX])],
                    _ => [r.next() as i16, r.next() as i16],
                }
            }
            Self::Level { level, run, about } => {
                if *run == 0 {
                    *run = 1 + r.below(40);
                    *about = about.map(|_| *level * r.pick(&[1, 1, -1, -1, 0]));
                }
                *run -= 1;
                about.map(|v| (v + r.between(-1, 1)) as i16)
            }
        }
    }
}
