//! A sheet with its banks, as text and as isdb-rs's `Params`, and its judgement by the numbers of the refusals.
//!
//! As text for judging a sheet is four lines: its 18 fields, then the banks h, g and k, a line each, row by row.

use crate::usage;
use isdb_frontend::params::{PHASES, ParamError, Params};
use std::io::{self, BufRead, Write};
use std::ops::RangeInclusive;

#[derive(Debug, Clone, Default, PartialEq)]
pub struct Sheet {
    pub taps: u32,
    pub nco_step: i32,
    pub period_nominal: u32,
    pub period_min: u32,
    pub period_max: u32,
    pub ted_shift: u8,
    pub kp: i16,
    pub kp_shift: u8,
    pub ki: i16,
    pub ki_shift: u8,
    pub integrator_max: i32,
    pub agc_init: u32,
    pub agc_target: u32,
    pub agc_shift: u8,
    pub bits: u8,
    pub q_shift: u8,
    pub block_log2: u8,
    pub delay: u8,
    /// h, g and k, each row by row.
    pub banks: [Vec<i32>; 3],
}

/// The delay of every design, and of isdb-rs where nothing of it is changed.
pub const DESIGN_DELAY: u8 = 24;

/// The delays that judging accepts.
pub const DELAYS: RangeInclusive<u8> = 1..=24;

/// Lowest and highest value of each field's type, in the fields' order.
pub const FIELDS: [(i64, i64); 18] = {
    const U8: (i64, i64) = (0, u8::MAX as i64);
    const I16: (i64, i64) = (i16::MIN as i64, i16::MAX as i64);
    const U32: (i64, i64) = (0, u32::MAX as i64);
    const I32: (i64, i64) = (i32::MIN as i64, i32::MAX as i64);
    [
        U32, I32, U32, U32, U32, U8, I16, U8, I16, U8, I32, U32, U32, U8, U8, U8, U8, U8,
    ]
};

/// The fields that refusal 7 tests, in its order.
const RANGED: [&str; 8] = [
    "bits",
    "q_shift",
    "block_log2",
    "agc_init",
    "integrator_max",
    "ted_shift",
    "kp_shift",
    "ki_shift",
];

const BANKS: [&str; 3] = ["h", "g", "k"];

impl Sheet {
    pub fn fields(&self) -> [i64; FIELDS.len()] {
        [
            self.taps.into(),
            self.nco_step.into(),
            self.period_nominal.into(),
            self.period_min.into(),
            self.period_max.into(),
            self.ted_shift.into(),
            self.kp.into(),
            self.kp_shift.into(),
            self.ki.into(),
            self.ki_shift.into(),
            self.integrator_max.into(),
            self.agc_init.into(),
            self.agc_target.into(),
            self.agc_shift.into(),
            self.bits.into(),
            self.q_shift.into(),
            self.block_log2.into(),
            self.delay.into(),
        ]
    }

    /// The sheet of fields that are within their types, with no banks yet.
    pub fn of(f: &[i64]) -> Self {
        Self {
            taps: f[0] as u32,
            nco_step: f[1] as i32,
            period_nominal: f[2] as u32,
            period_min: f[3] as u32,
            period_max: f[4] as u32,
            ted_shift: f[5] as u8,
            kp: f[6] as i16,
            kp_shift: f[7] as u8,
            ki: f[8] as i16,
            ki_shift: f[9] as u8,
            integrator_max: f[10] as i32,
            agc_init: f[11] as u32,
            agc_target: f[12] as u32,
            agc_shift: f[13] as u8,
            bits: f[14] as u8,
            q_shift: f[15] as u8,
            block_log2: f[16] as u8,
            delay: f[17] as u8,
            banks: Default::default(),
        }
    }

    /// The sheet that isdb-rs designed. isdb-rs has no field for the delay.
    pub fn designed(p: &Params) -> Self {
        Self {
            taps: p.taps() as u32,
            nco_step: p.nco_step,
            period_nominal: p.period_nominal,
            period_min: p.period_min,
            period_max: p.period_max,
            ted_shift: p.ted_shift,
            kp: p.kp,
            kp_shift: p.kp_shift,
            ki: p.ki,
            ki_shift: p.ki_shift,
            integrator_max: p.integrator_max,
            agc_init: p.agc_init,
            agc_target: p.agc_target,
            agc_shift: p.agc_shift,
            bits: p.bits,
            q_shift: p.q_shift,
            block_log2: p.block_log2,
            delay: DESIGN_DELAY,
            banks: [p.h.concat(), p.g.concat(), p.k.concat()],
        }
    }

    pub fn params(&self) -> Params {
        let rows = |bank: &[i32]| match self.taps {
            0 => vec![Vec::new(); PHASES],
            taps => bank.chunks(taps as usize).map(<[i32]>::to_vec).collect(),
        };
        Params {
            nco_step: self.nco_step,
            h: rows(&self.banks[0]),
            g: rows(&self.banks[1]),
            k: rows(&self.banks[2]),
            period_nominal: self.period_nominal,
            period_min: self.period_min,
            period_max: self.period_max,
            ted_shift: self.ted_shift,
            kp: self.kp,
            kp_shift: self.kp_shift,
            ki: self.ki,
            ki_shift: self.ki_shift,
            integrator_max: self.integrator_max,
            agc_init: self.agc_init,
            agc_target: self.agc_target,
            agc_shift: self.agc_shift,
            bits: self.bits,
            q_shift: self.q_shift,
            block_log2: self.block_log2,
        }
    }

    /// What isdb-rs says of the sheet, by the refusals' numbers: the number and what it carries, or nothing where
    /// the sheet is accepted. 8 and 29 are no refusals of isdb-rs: they come after all that isdb-rs tests.
    pub fn judge(&self) -> Vec<i64> {
        match self.params().validate() {
            Ok(()) if self.agc_shift > 63 => vec![8],
            Ok(()) if !DELAYS.contains(&self.delay) => vec![29],
            Ok(()) => Vec::new(),
            Err(ParamError::Taps { .. }) => vec![1],
            Err(ParamError::Phases { .. } | ParamError::RaggedBank { .. }) => vec![2],
            Err(ParamError::Coefficient { bank, phase, value }) => {
                vec![3, place(&BANKS, bank), phase as i64, value.into()]
            }
            Err(ParamError::CoefficientSum { bank, phase, sum }) => {
                vec![4, place(&BANKS, bank), phase as i64, sum]
            }
            Err(ParamError::DetectorTaps { bank }) => vec![5, place(&BANKS, bank)],
            Err(ParamError::PeriodBounds { .. }) => vec![6],
            Err(ParamError::Range { what, .. }) => vec![7, place(&RANGED, what)],
            Err(e) => unreachable!("validate has no {e:?}"),
        }
    }

    pub fn write(&self, output: &mut impl Write) -> io::Result<()> {
        writeln!(output, "{}", joined(&self.fields()))?;
        for bank in &self.banks {
            writeln!(output, "{}", joined(bank))?;
        }
        Ok(())
    }

    /// The first lines of the symbol program's input: the fields, then each bank with a line for each of its rows.
    pub fn write_rows(&self, output: &mut impl Write) -> io::Result<()> {
        writeln!(output, "{}", joined(&self.fields()))?;
        for bank in &self.banks {
            for row in bank.chunks((self.taps as usize).max(1)) {
                writeln!(output, "{}", joined(row))?;
            }
        }
        Ok(())
    }

    fn read(lines: &[String]) -> io::Result<Self> {
        let fields: Vec<i64> = numbers(&lines[0])?;
        if fields.len() != FIELDS.len()
            || fields
                .iter()
                .zip(FIELDS)
                .any(|(f, (lo, hi))| !(lo..=hi).contains(f))
        {
            return Err(usage(&format!(
                "not the 18 fields of a sheet: {}",
                lines[0]
            )));
        }
        let mut sheet = Self::of(&fields);
        for (bank, line) in sheet.banks.iter_mut().zip(&lines[1..]) {
            *bank = numbers(line)?;
        }
        Ok(sheet)
    }
}

fn place(names: &[&str], name: &str) -> i64 {
    names
        .iter()
        .position(|n| *n == name)
        .expect("a name of the list") as i64
}

pub fn joined<T: ToString>(numbers: &[T]) -> String {
    numbers
        .iter()
        .map(T::to_string)
        .collect::<Vec<_>>()
        .join(",")
}

fn numbers<T: std::str::FromStr>(line: &str) -> io::Result<Vec<T>> {
    if line.is_empty() {
        return Ok(Vec::new());
    }
    let parse = |f: &str| {
        f.parse()
            .map_err(|_| usage(&format!("{f} is not a number of its type")))
    };
    line.split(',').map(parse).collect()
}

/// Reads sheets, and writes each back with a line that says 0, or the refusal's number and what it carries.
pub fn validate(input: impl BufRead, output: &mut impl Write) -> io::Result<()> {
    let lines = input.lines().collect::<io::Result<Vec<_>>>()?;
    for case in lines.chunks(4) {
        if case.len() < 4 {
            return Err(usage("the last sheet has fewer than 4 lines"));
        }
        let sheet = Sheet::read(case)?;
        sheet.write(output)?;
        let answer = sheet.judge();
        writeln!(
            output,
            "{}",
            if answer.is_empty() {
                "0".to_string()
            } else {
                joined(&answer)
            }
        )?;
    }
    Ok(())
}
