//! Judging and the offset: sheets with what both answer.

use crate::generate;
use crate::random::Random;
use crate::reading::Reading;
use crate::rows::Rows;
use crate::sheet::Sheet;
use std::io::{self, Write};

/// Sheets of a kind with every eighth a new one, and those between the last new one with faults.
pub fn write(kind: &str, seed: u64, count: u64, output: &mut impl Write) -> io::Result<()> {
    let mut r = Random::new(seed);
    let mut rows = Rows::new(output);
    let mut base = Sheet::default();
    for n in 0..count {
        if n % 8 == 0 {
            base = generate::sheet(kind, &mut r)?;
            calls(&mut rows, &base, &mut r)?;
        } else {
            calls(&mut rows, &generate::spoiled(&mut r, base.clone()), &mut r)?;
        }
    }
    Ok(())
}

fn calls(rows: &mut Rows<impl Write>, sheet: &Sheet, r: &mut Random) -> io::Result<()> {
    let reading = Reading::of(sheet);
    rows.sheet(sheet)?;
    rows.judged(reading.refusal())?;
    for _ in 0..3 {
        let period = period(r, sheet);
        rows.offset(period, reading.offset(period))?;
    }
    Ok(())
}

/// A period at a bound, next to one, next to the nominal one, or anywhere.
fn period(r: &mut Random, sheet: &Sheet) -> u32 {
    let near = r.pick(&[sheet.period_min, sheet.period_nominal, sheet.period_max]);
    match r.below(4) {
        0 => r.next() as u32,
        1 => r.between(1 << 24, 1 << 26) as u32,
        _ => near.wrapping_add_signed(r.between(-2, 2) as i32),
    }
}
