//! The registers of a design, and float samples. A float is written by its bits in hexadecimal, so that no digit of
//! it is lost on the way.

use crate::sheet::DESIGN_DELAY;
use crate::usage;
use isdb_frontend::params::{Design, ParamError, Params};
use num_complex::Complex32;
use std::io::{self, BufRead, Write};

/// A design's line: sample_rate, symbol_rate, roll_off, carrier_offset, taps, trim, kaiser_beta, loop_bandwidth,
/// bits, agc_rms, clip, block_log2; the f64 by their bits.
pub fn text(d: &Design) -> String {
    format!(
        "{:016x},{:016x},{:016x},{:016x},{},{:016x},{:016x},{:016x},{},{:016x},{:016x},{}",
        d.sample_rate.to_bits(),
        d.symbol_rate.to_bits(),
        d.roll_off.to_bits(),
        d.carrier_offset.to_bits(),
        d.taps,
        d.trim.to_bits(),
        d.kaiser_beta.to_bits(),
        d.loop_bandwidth.to_bits(),
        d.bits,
        d.agc_rms.to_bits(),
        d.clip.to_bits(),
        d.block_log2
    )
}

fn read(line: &str) -> Option<Design> {
    let f: Vec<&str> = line.split(',').collect();
    let float = |i: usize| u64::from_str_radix(f.get(i)?, 16).ok().map(f64::from_bits);
    Some(Design {
        sample_rate: float(0)?,
        symbol_rate: float(1)?,
        roll_off: float(2)?,
        carrier_offset: float(3)?,
        taps: f.get(4)?.parse().ok()?,
        trim: float(5)?,
        kaiser_beta: float(6)?,
        loop_bandwidth: float(7)?,
        bits: f.get(8)?.parse().ok()?,
        agc_rms: float(9)?,
        clip: float(10)?,
        block_log2: f.get(11)?.parse().ok()?,
    })
}

/// What isdb-rs answers to a design.
pub enum Answer {
    Registers(Box<Params>),
    /// A refusal's number, and the f64 that it carries.
    Refused(i64, Option<f64>),
    /// A refusal that has no number here.
    LoopGain,
}

impl Answer {
    pub fn of(d: &Design) -> Self {
        match Params::design(d) {
            Ok(p) => Self::Registers(Box::new(p)),
            Err(ParamError::SamplesPerSymbol { sps }) => Self::Refused(14, Some(sps)),
            Err(ParamError::Taps { .. }) => Self::Refused(15, None),
            Err(ParamError::Range { .. }) => Self::Refused(16, None),
            Err(ParamError::Trim { trim }) => Self::Refused(17, Some(trim)),
            Err(ParamError::LoopGain { .. }) => Self::LoopGain,
            Err(e) => unreachable!("design has no {e:?}"),
        }
    }
}

/// Reads designs, and writes each back with its answer: `ok` and the registers; `refused`, the number and the bits
/// of the f64 that it carries; or `loop-gain` where isdb-rs has a refusal that has no number.
pub fn registers(input: impl BufRead, output: &mut impl Write) -> io::Result<()> {
    for line in input.lines() {
        let line = line?;
        let d = read(&line).ok_or_else(|| usage(&format!("not a design: {line}")))?;
        let answer = match Answer::of(&d) {
            Answer::Registers(p) => format!(
                "ok,{},{},{},{},{},{},{},{},{},{},{},{},{DESIGN_DELAY}",
                p.period_nominal,
                p.period_min,
                p.period_max,
                p.integrator_max,
                p.nco_step,
                p.agc_target,
                p.agc_init,
                p.agc_shift,
                p.ted_shift,
                p.taps(),
                p.bits,
                p.block_log2
            ),
            Answer::Refused(number, None) => format!("refused,{number}"),
            Answer::Refused(number, Some(x)) => format!("refused,{number},{:016x}", x.to_bits()),
            Answer::LoopGain => "loop-gain".to_string(),
        };
        writeln!(output, "{}\n{answer}", text(&d))?;
    }
    Ok(())
}

/// Reads f32 by their bits, and writes each with the sample that it becomes.
pub fn samples(input: impl BufRead, output: &mut impl Write) -> io::Result<()> {
    for line in input.lines() {
        let line = line?;
        let bits = u32::from_str_radix(&line, 16)
            .map_err(|_| usage(&format!("not the bits of an f32: {line}")))?;
        let x = f32::from_bits(bits);
        let [re, im] = isdb_frontend::input_sample(Complex32 { re: x, im: x });
        assert_eq!(re, im);
        writeln!(output, "{bits:08x},{re}")?;
    }
    Ok(())
}
