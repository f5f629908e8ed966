//! Every number that a sheet's delay can be, under one small sheet: all calls where it is accepted, and where it is refused.

use crate::generate;
use crate::random::Random;
use crate::reading::{Reading, SYMBOL};
use crate::rows::Rows;
use crate::sheet::Sheet;
use std::io::{self, Write};

/// Each delay by itself, then each behind an agc_shift that is refused before it.
pub fn write(seed: u64, output: &mut impl Write) -> io::Result<()> {
    let mut r = Random::new(seed);
    let mut rows = Rows::new(output);
    let mut sheet = generate::sheet("small", &mut r)?;
    for agc_shift in [sheet.agc_shift, 64] {
        sheet.agc_shift = agc_shift;
        for delay in 0..=u8::MAX {
            sheet.delay = delay;
            calls(&mut rows, &sheet, &mut r)?;
        }
    }
    Ok(())
}

/// What starting gives under a refused sheet is no good state under any, so that the sheet's refusals show before 9.
fn calls(rows: &mut Rows<impl Write>, sheet: &Sheet, r: &mut Random) -> io::Result<()> {
    let reading = Reading::of(sheet);
    rows.sheet(sheet)?;
    rows.judged(reading.refusal())?;
    rows.offset(sheet.period_nominal, reading.offset(sheet.period_nominal))?;
    rows.started(reading.refusal())?;
    let pair = [r.next() as i16, r.next() as i16];
    let block = reading.block(&reading.start(), &pair, SYMBOL);
    rows.values(&pair)?;
    rows.block(SYMBOL, &block)?;
    rows.read(&reading.read(&block.state))
}
