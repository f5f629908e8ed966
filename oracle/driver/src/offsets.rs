//! Offsets: accepted sheets that differ in their periods, asked for the offsets of periods that stand out. An offset is
//! 10^9 × nominal / period less 10^9, so the rest of this one division says what rounding has to do.

use crate::generate::{self, ends};
use crate::random::Random;
use crate::reading::Reading;
use crate::rows::Rows;
use crate::sheet::Sheet;
use std::io::{self, Write};

/// Sheets with the same banks and delay: the row of a bank is as long as those of a hundred offsets.
const SHARED: u64 = 64;
/// Offsets under a sheet.
const ASKED: usize = 64;
/// The least and the largest period that judging accepts.
const LOW: i64 = (1 << 24) + 1;
const HIGH: i64 = (1 << 26) - 1;

/// Every eighth sheet is the one before it with its nominal period moved by one, and is asked for the same periods.
pub fn write(seed: u64, count: u64, output: &mut impl Write) -> io::Result<()> {
    let mut r = Random::new(seed);
    let mut rows = Rows::new(output);
    let mut sheet = Sheet::default();
    let mut asked = Vec::new();
    for n in 0..count {
        if n % SHARED == 0 {
            sheet = generate::sheet("small", &mut r)?;
        }
        if n % 8 == 7 {
            move_nominal(&mut r, &mut sheet);
        } else {
            set_periods(&mut r, &mut sheet);
            asked = periods(&mut r, &sheet);
        }
        offsets(&mut rows, &sheet, &asked)?;
    }
    Ok(())
}

fn offsets(rows: &mut Rows<impl Write>, sheet: &Sheet, asked: &[u32]) -> io::Result<()> {
    let reading = Reading::of(sheet);
    rows.sheet(sheet)?;
    for period in asked {
        rows.offset(*period, reading.offset(*period))?;
    }
    Ok(())
}

// ---- the periods of a sheet

/// The nominal period one up or down, and a bound with it where it would pass that.
fn move_nominal(r: &mut Random, sheet: &mut Sheet) {
    let step = match sheet.period_nominal.into() {
        LOW => 1,
        HIGH => -1,
        _ => r.pick(&[-1, 1]),
    };
    let nominal = sheet.period_nominal.wrapping_add_signed(step);
    sheet.period_nominal = nominal;
    sheet.period_min = sheet.period_min.min(nominal);
    sheet.period_max = sheet.period_max.max(nominal);
}

fn set_periods(r: &mut Random, sheet: &mut Sheet) {
    let [min, nominal, max] = match r.below(8) {
        0 => bounded(r, tied),
        1 => bounded(r, close),
        2 => around(r, |r| ends(r, LOW, HIGH)),
        _ => around(r, smooth),
    };
    sheet.period_min = min as u32;
    sheet.period_nominal = nominal as u32;
    sheet.period_max = max as u32;
}

/// A nominal period with each bound as far from it as can be, at it, next to these, or between.
fn around(r: &mut Random, nominal: impl Fn(&mut Random) -> i64) -> [i64; 3] {
    let nominal = nominal(r);
    let (min, max) = (ends(r, LOW, nominal), ends(r, nominal, HIGH));
    [r.pick(&[LOW, min]), nominal, r.pick(&[max, HIGH])]
}

/// A nominal period and a period that go together, the second as a bound, since bounds are always asked for.
fn bounded(r: &mut Random, pair: impl Fn(&mut Random) -> (i64, i64)) -> [i64; 3] {
    let (nominal, period) = pair(r);
    if period < nominal {
        [period, nominal, ends(r, nominal, HIGH)]
    } else {
        [ends(r, LOW, nominal), nominal, period]
    }
}

/// A nominal period of many divisors, which has many ties.
fn smooth(r: &mut Random) -> i64 {
    loop {
        let mut nominal = 1 << r.below(4);
        while nominal < LOW {
            nominal *= r.pick(&[3, 3, 5, 7, 11, 13, 17, 19]);
        }
        if nominal <= HIGH {
            return nominal;
        }
    }
}

/// A nominal period and a period that is a tie under it: 2 × 10^9 × nominal / period is odd there. As 2 × 10^9 is
/// 2^10 × 5^9, nominal / period has to be an odd number over 2^10 × 5^j. j is at most 6, since no period is larger.
fn tied(r: &mut Random) -> (i64, i64) {
    let below = 1024 * 5i64.pow(r.below(7) as u32);
    let both = r.between(LOW / below + 1, HIGH / below);
    let above = r.between(LOW / both + 1, HIGH / both - 1) | 1;
    (both * above, both * below)
}

/// A nominal period and a period whose rest is as close as can be to none, to a half, or to the whole period. For a
/// period that has no factor in common with 10 there is a nominal period for each rest: it / 10^9 modulo the period.
fn close(r: &mut Random) -> (i64, i64) {
    loop {
        let period = r.between(LOW, HIGH);
        if period % 2 == 0 || period % 5 == 0 {
            continue;
        }
        let rest = r.pick(&[1, period / 2, period / 2 + 1, period - 1]);
        let nominal = (0..9).fold(rest, |n, _| tenth(n, period)) + period * r.between(0, 3);
        if (LOW..=HIGH).contains(&nominal) {
            return (nominal, period);
        }
    }
}

/// The number below the modulus whose tenfold is n modulo it, for a modulus that has no factor in common with 10.
fn tenth(n: i64, modulus: i64) -> i64 {
    let tenfold = (0..10).map(|k| n + k * modulus).find(|n| n % 10 == 0);
    tenfold.expect("the ten have all last digits") / 10
}

// ---- the periods that are asked for

/// Those within two of the bounds and of the nominal period, and a mixture.
fn periods(r: &mut Random, sheet: &Sheet) -> Vec<u32> {
    let mut asked = Vec::with_capacity(ASKED);
    for mark in [sheet.period_min, sheet.period_nominal, sheet.period_max] {
        asked.extend(mark - 2..=mark + 2);
    }
    let rests = Rests::of(sheet);
    while asked.len() < ASKED {
        asked.push(rests.period(r, sheet));
    }
    asked
}

/// Periods within the bounds of a sheet by the rest of the division.
#[derive(Default)]
struct Rests {
    none: Vec<u32>,
    half: Vec<u32>,
    /// A little less or more than half.
    near: Vec<u32>,
}

impl Rests {
    /// Looks at the multiples of 512. A tie has ten factors of 2 more than the nominal period, so all ties are found,
    /// and of the periods without a rest those with nine factors or more, which are enough.
    fn of(sheet: &Sheet) -> Self {
        let mut rests = Self::default();
        let dividend = 1_000_000_000 * u64::from(sheet.period_nominal);
        for period in (sheet.period_min.next_multiple_of(512)..=sheet.period_max).step_by(512) {
            let rest = (dividend % u64::from(period)) as u32;
            match (2 * rest).abs_diff(period) {
                0 => rests.half.push(period),
                distance if distance < period >> 13 => rests.near.push(period),
                _ if rest == 0 => rests.none.push(period),
                _ => (),
            }
        }
        rests
    }

    /// A period that stands out or lies next to a tie, one within the bounds, or now and then any number.
    fn period(&self, r: &mut Random, sheet: &Sheet) -> u32 {
        let within = r.between(sheet.period_min.into(), sheet.period_max.into()) as u32;
        match r.below(16) {
            0..=7 => one_of(r, &self.half, within),
            8 => one_of(r, &self.half, within) - 1,
            9 => one_of(r, &self.half, within) + 1,
            10 => one_of(r, &self.none, within),
            11 | 12 => one_of(r, &self.near, within),
            13 => r.next() as u32,
            _ => within,
        }
    }
}

fn one_of(r: &mut Random, from: &[u32], if_empty: u32) -> u32 {
    match from {
        [] => if_empty,
        _ => r.pick(from),
    }
}
