//! Answers on floats: samples, the registers of designs, and sheets of designs, as rows that crates/replay_floats
//! reads. A row begins with what it is: 0 a sample, 1 a design, 6 a design with the banks and gains in force; and 2 to
//! 5 the banks h, g and k and the gains, each in force until it is written again.

use crate::design::Answer;
use crate::generate::{self, any_design, beside, plausible};
use crate::random::Random;
use crate::sheet::{DESIGN_DELAY, Sheet, joined};
use crate::usage;
use isdb_frontend::params::{Design, Params};
use num_complex::Complex32;
use std::io::{self, Write};

pub fn write(kind: &str, seed: u64, count: u64, output: &mut impl Write) -> io::Result<()> {
    let mut r = Random::new(seed);
    match kind {
        "samples" => some_samples(&mut r, count, output),
        "designs" => designs(&mut r, count, output),
        "sheets" => sheets("mixed", &mut r, count, output),
        "small" => sheets("small", &mut r, count, output),
        _ => Err(usage(&format!("{kind} is no kind of answers on floats"))),
    }
}

// ---- samples

/// Whole numbers and ties are looked at up to here, in sizes of 1 / 2048: a little past both ends of what a sample can
/// be.
const WHOLE: i32 = 2050;

/// One of each `step` neighbouring bit patterns, so that every size and sign is among them; then all that stand out.
pub fn samples(step: u64, output: &mut impl Write) -> io::Result<()> {
    if !step.is_power_of_two() || step > 1 << 16 {
        return Err(usage(&format!("{step} is no power of two up to 65536")));
    }
    let count = (1 << 32) / step;
    let pattern = |n: u64| (n * step + (n.wrapping_mul(0x9e37_79b9) >> 16) % step) as u32;
    for n in 0..count / 2 {
        sample(pattern(n), pattern(count - 1 - n), output)?;
    }
    let outstanding = outstanding();
    for (re, im) in outstanding.iter().zip(outstanding.iter().rev()) {
        sample(*re, *im, output)?;
    }
    Ok(())
}

/// Some that stand out.
fn some_samples(r: &mut Random, count: u64, output: &mut impl Write) -> io::Result<()> {
    let from = outstanding();
    for _ in 0..count {
        sample(r.pick(&from), r.pick(&from), output)?;
    }
    Ok(())
}

/// The bit patterns within three of each tie and of each whole number, those around zero, the subnormal numbers' ends,
/// the largest numbers, the infinities and NaN.
pub fn outstanding() -> Vec<u32> {
    let mut near = vec![
        0,
        f32::MIN_POSITIVE.to_bits(),
        f32::MAX.to_bits(),
        f32::INFINITY.to_bits(),
        f32::NAN.to_bits(),
        u32::MAX >> 1,
        // the largest whose product is finite
        (f32::MAX / 2048.0).to_bits(),
    ];
    for k in -WHOLE..=WHOLE {
        near.push((k as f32 / 2048.0).to_bits());
        near.push(((k as f32 + 0.5) / 2048.0).to_bits());
    }
    let mut all: Vec<u32> = near
        .iter()
        .flat_map(|x| (-3..=3).map(|n| x.wrapping_add_signed(n)))
        .flat_map(|x| [x, x ^ 1 << 31])
        .collect();
    all.sort_unstable();
    all.dedup();
    all
}

fn sample(re: u32, im: u32, output: &mut impl Write) -> io::Result<()> {
    let [i, q] = sample_of(f32::from_bits(re), f32::from_bits(im));
    writeln!(output, "0,{re},{im},{i},{q}")
}

/// What isdb-rs makes of a float sample.
pub fn sample_of(re: f32, im: f32) -> [i16; 2] {
    isdb_frontend::input_sample(Complex32 { re, im })
}

// ---- designs

/// The corners, then random ones, until so many are answered.
fn designs(r: &mut Random, count: u64, output: &mut impl Write) -> io::Result<()> {
    let mut corners = corners().into_iter();
    let (mut written, mut unnumbered) = (0, 0);
    while written < count {
        let mut d = corners.next().unwrap_or_else(|| special(r));
        few_taps(r, &mut d);
        let answer = match answer(&mut d) {
            Answer::Registers(p) => joined(&registers(&p)),
            Answer::Refused(number, carried) => refused(number, carried),
            Answer::LoopGain => {
                unnumbered += 1;
                continue;
            }
        };
        writeln!(output, "1,{},{answer}", numbers(&d))?;
        written += 1;
    }
    told(unnumbered);
    Ok(())
}

fn told(unnumbered: u64) {
    eprintln!("{unnumbered} designs are left out: isdb-rs refuses their loop gain");
}

/// The answer of isdb-rs. Where the loop's gain is refused, a bandwidth that suits the level may do: no register
/// depends on it.
pub fn answer(d: &mut Design) -> Answer {
    match Answer::of(d) {
        Answer::LoopGain => {
            d.loop_bandwidth = 2e-4 * (d.agc_rms / 0.25).powi(2);
            Answer::of(d)
        }
        answer => answer,
    }
}

/// The design's eight numbers.
fn numbers(d: &Design) -> String {
    let floats = [
        d.sample_rate,
        d.symbol_rate,
        d.carrier_offset,
        d.trim,
        d.agc_rms,
    ];
    let (taps, bits, block_log2) = (d.taps, d.bits, d.block_log2);
    format!("{},{taps},{bits},{block_log2}", joined(&floats.map(number)))
}

/// The number that has a float's bits.
fn number(x: f64) -> i64 {
    x.to_bits() as i64
}

fn refused(refusal: i64, carried: Option<f64>) -> String {
    match carried {
        None => refusal.to_string(),
        Some(x) => joined(&[refusal, number(x)]),
    }
}

/// 0, and the fields of a sheet that a design determines.
fn registers(p: &Params) -> [i64; 14] {
    [
        0,
        p.taps() as i64,
        p.nco_step.into(),
        p.period_nominal.into(),
        p.period_min.into(),
        p.period_max.into(),
        p.ted_shift.into(),
        p.integrator_max.into(),
        p.agc_init.into(),
        p.agc_target.into(),
        p.agc_shift.into(),
        p.bits.into(),
        p.block_log2.into(),
        DESIGN_DELAY.into(),
    ]
}

/// isdb-rs computes the banks of each design that it accepts, and few taps are faster.
fn few_taps(r: &mut Random, d: &mut Design) {
    if d.taps > 10 && d.taps <= 64 && !r.one_in(20) {
        d.taps = 4 + d.taps % 8;
    }
}

/// The samples a symbol that stand out: the ends of what is allowed, one that the judge refuses, where the least
/// period leaves its bound, and where the largest reaches its own.
const SPS: [f64; 6] = [1.0625, 4.0, 3.95, 1.0625 / 0.98, 4.0 / 1.02, 2.0];

/// A float and its two neighbours.
fn around(x: f64) -> [f64; 3] {
    [-1, 0, 1].map(|n| f64::from_bits(x.to_bits().wrapping_add_signed(n)))
}

/// Every float that stands out, in every field in turn.
fn corners() -> Vec<Design> {
    let usual = Design::new(2.0, 1.0, 0.35);
    let mut all = Vec::new();
    let mut with = |change: &dyn Fn(&mut Design)| {
        let mut d = usual.clone();
        change(&mut d);
        all.push(d);
    };
    for sps in SPS.into_iter().flat_map(around) {
        with(&|d| d.sample_rate = sps);
        with(&|d| (d.sample_rate, d.symbol_rate) = (-sps, -1.0));
        with(&|d| (d.sample_rate, d.symbol_rate) = (sps * 3.0, 3.0));
    }
    let nan = f64::from_bits(0xfff0_0000_0000_0001);
    let special = [
        f64::NAN,
        nan,
        f64::INFINITY,
        f64::NEG_INFINITY,
        0.0,
        -0.0,
        f64::MIN_POSITIVE,
        f64::MAX,
        f64::MIN,
        f64::from_bits(1),
        -f64::from_bits(1),
    ];
    for x in special.into_iter().chain(around(0.5)).chain(around(-0.5)) {
        with(&|d| d.sample_rate = x);
        with(&|d| d.symbol_rate = x);
        with(&|d| (d.sample_rate, d.symbol_rate) = (x, x));
        with(&|d| (d.sample_rate, d.symbol_rate) = (2.0 * x, x));
        with(&|d| d.carrier_offset = x);
        with(&|d| d.trim = x);
        with(&|d| d.agc_rms = x);
        with(&|d| d.agc_rms = 1.0 + x);
    }
    for taps in [0, 1, 2, 3, 4, 5, 63, 64, 65, 66, u32::MAX as usize] {
        with(&|d| d.taps = taps);
        with(&|d| (d.taps, d.bits, d.trim) = (taps, 9, 1.0));
        with(&|d| (d.taps, d.sample_rate) = (taps, 4.0));
    }
    for bits in [0, 1, 2, 8, 9, 255] {
        with(&|d| d.bits = bits);
        with(&|d| (d.bits, d.trim) = (bits, f64::NAN));
        with(&|d| d.block_log2 = bits);
    }
    all
}

/// A design with strange fields, or one of which a step is next to a tie or to a whole number.
fn special(r: &mut Random) -> Design {
    if r.one_in(2) {
        return any_design(r);
    }
    let mut d = plausible(r);
    d.block_log2 = r.next() as u8;
    match r.below(4) {
        // the nominal period, the others, and the integrator's bound
        0 => {
            let scale = r.pick(&[1.0, 0.98, 1.02, 0.01]) * 16777216.0;
            let half = r.pick(&[0.0, 0.5]);
            let within = 1.0625 + 2.9 * r.unit();
            let sps = r.pick(&[1.0625, 4.0, within, within]);
            d.symbol_rate = 2f64.powi(r.between(-40, 40) as i32);
            d.sample_rate = beside(r, ((sps * scale).floor() + half) / scale) * d.symbol_rate;
        }
        // the mixer's step, from a part of a turn to many turns
        1 => {
            d.symbol_rate = 2f64.powi(r.between(0, 30) as i32);
            d.sample_rate = d.symbol_rate * r.pick(&[2.0, 1.5, 3.0]);
            let turns = (r.any_i64() >> r.between(0, 63)) as f64 + r.pick(&[0.0, 0.5, -0.5]);
            d.carrier_offset = beside(r, turns * d.sample_rate / 4294967296.0);
        }
        // the level's square
        2 => {
            let target = r.next() >> r.between(30, 60);
            d.agc_rms = beside(r, (target as f64 + 0.5).sqrt() / 512.0);
        }
        _ => d.agc_rms = (r.unit() - 0.5) * 2f64.powi(r.between(-30, 16) as i32),
    }
    d
}

// ---- sheets

/// Designs with the banks and gains of sheets: every eighth a new sheet, and of those between one in three the last
/// new one with faults. The first design passes where its sheet is refused.
fn sheets(kind: &str, r: &mut Random, count: u64, output: &mut impl Write) -> io::Result<()> {
    let mut in_force: [String; 4] = Default::default();
    let mut base = Sheet::default();
    let (mut written, mut unnumbered) = (0, 0);
    while written < count {
        if written % 8 == 0 {
            base = generate::sheet(kind, r)?;
        }
        let sheet = match r.below(3) {
            0 if written > 0 => generate::spoiled(r, base.clone()),
            _ => base.clone(),
        };
        let mut d = match written {
            0 => Design {
                taps: sheet.taps as usize,
                ..Design::new(3.95, 1.0, 0.35)
            },
            _ => design_for(r, &sheet),
        };
        let answer = match answer(&mut d) {
            Answer::Registers(p) => judged(&p, &sheet),
            Answer::Refused(number, carried) => refused(number, carried),
            Answer::LoopGain => {
                unnumbered += 1;
                continue;
            }
        };
        for (n, part) in parts(&sheet).into_iter().enumerate() {
            if in_force[n] != part {
                let comma = if part.is_empty() { "" } else { "," };
                writeln!(output, "{}{comma}{part}", n + 2)?;
                in_force[n] = part;
            }
        }
        writeln!(output, "6,{},{answer}", numbers(&d))?;
        written += 1;
    }
    told(unnumbered);
    Ok(())
}

/// What a design leaves open: the three banks, and the gains with their shifts.
fn parts(s: &Sheet) -> [String; 4] {
    let [h, g, k] = &s.banks;
    let gains = format!(
        "{},{},{},{},{}",
        s.kp, s.kp_shift, s.ki, s.ki_shift, s.q_shift
    );
    [joined(h), joined(g), joined(k), gains]
}

/// The sheet that has a design's registers, and another one's banks and gains.
pub fn sheet_of(p: &Params, s: &Sheet) -> Sheet {
    Sheet {
        kp: s.kp,
        kp_shift: s.kp_shift,
        ki: s.ki,
        ki_shift: s.ki_shift,
        q_shift: s.q_shift,
        banks: s.banks.clone(),
        ..Sheet::designed(p)
    }
}

/// What isdb-rs says of it.
fn judged(p: &Params, s: &Sheet) -> String {
    let sheet = sheet_of(p, s);
    match &sheet.judge()[..] {
        [] => format!("0,{}", joined(&sheet.fields())),
        refusal => joined(refusal),
    }
}

/// A design, as a rule of the sheet's taps: the judge would else say little.
pub fn design_for(r: &mut Random, sheet: &Sheet) -> Design {
    let mut d = match r.below(4) {
        0 => special(r),
        _ => plausible(r),
    };
    if r.one_in(4) {
        d.symbol_rate = r.pick(&[1.0, 2.0]);
        let sps = r.pick(&SPS);
        d.sample_rate = beside(r, sps) * d.symbol_rate;
    }
    if !r.one_in(16) {
        d.taps = sheet.taps as usize;
    }
    if r.one_in(8) {
        d.block_log2 = r.pick(&[0, 7, 8, 15, 16, 255]);
    }
    d
}
