//! Sheets to retune to: the one in force with something changed, much of it just within what the state lets pass, or just past it.

use crate::generate::{self, ends};
use crate::random::Random;
use crate::sheet::{DELAYS, FIELDS, Sheet};
use crate::state::State;

/// The largest of all periods that judging accepts, and the least.
const HIGH: i64 = (1 << 26) - 1;
const LOW: i64 = (1 << 24) + 1;

/// What is changed.
#[derive(Clone, Copy)]
pub enum Change {
    Nothing,
    /// All: it is one that was in force before.
    Earlier,
    Gains,
    Nominal,
    /// A bound of the period, or both: the present period is at it, or one inside.
    PeriodAt,
    /// The present period is one outside.
    PeriodOutside,
    /// The integrator's bound: the least that the present integrator is within, or one more.
    IntegratorAt,
    /// One less than the least.
    IntegratorOutside,
    Agc,
    /// The mixer's step, the detector's shift, what symbols are quantised to, or what nothing reads.
    Rest,
    /// A field, by one.
    OneField,
    Many,
    Banks,
    BanksAndMany,
    Delay,
    Taps,
    /// Something that judging refuses.
    Judged,
    /// Several of those that are refused.
    Faults,
}

impl Change {
    /// Every change, and those several times that leave the banks as they are.
    pub const ALL: [Self; 34] = [
        Self::Nothing,
        Self::Earlier,
        Self::Earlier,
        Self::Gains,
        Self::Gains,
        Self::Gains,
        Self::Nominal,
        Self::Nominal,
        Self::PeriodAt,
        Self::PeriodAt,
        Self::PeriodAt,
        Self::PeriodOutside,
        Self::PeriodOutside,
        Self::IntegratorAt,
        Self::IntegratorAt,
        Self::IntegratorOutside,
        Self::IntegratorOutside,
        Self::Agc,
        Self::Agc,
        Self::Agc,
        Self::Rest,
        Self::Rest,
        Self::Rest,
        Self::OneField,
        Self::OneField,
        Self::OneField,
        Self::Many,
        Self::Banks,
        Self::BanksAndMany,
        Self::Delay,
        Self::Taps,
        Self::Judged,
        Self::Faults,
        Self::Faults,
    ];
}

/// Where a list stands.
pub struct At<'a> {
    /// The sheet in force.
    pub sheet: &'a Sheet,
    /// It and others that were in force before.
    pub sheets: &'a [Sheet],
    pub state: &'a State,
}

impl<'a> At<'a> {
    /// Where no other sheet was in force.
    pub fn first(sheet: &'a Sheet, state: &'a State) -> Self {
        Self {
            sheet,
            sheets: std::slice::from_ref(sheet),
            state,
        }
    }

    /// The sheet in force, changed.
    pub fn changed(&self, change: Change, r: &mut Random) -> Sheet {
        let mut sheet = self.sheet.clone();
        match change {
            Change::Nothing => (),
            Change::Earlier => {
                sheet = self.sheets[r.below(self.sheets.len() as u64) as usize].clone()
            }
            Change::Gains => gains(&mut sheet, r),
            Change::Nominal => nominal(&mut sheet, r),
            Change::PeriodAt => self.period_at(&mut sheet, r),
            Change::PeriodOutside => self.period_outside(&mut sheet, r),
            Change::IntegratorAt => sheet.integrator_max = self.least_bound() + r.pick(&[0, 0, 1]),
            Change::IntegratorOutside => self.integrator_outside(&mut sheet, r),
            Change::Agc => agc(&mut sheet, r),
            Change::Rest => rest(&mut sheet, r),
            Change::OneField => sheet = one_field(&sheet, r),
            Change::Many => many(&mut sheet, r),
            Change::Banks => banks(&mut sheet, r),
            Change::BanksAndMany => {
                banks(&mut sheet, r);
                many(&mut sheet, r);
            }
            Change::Delay => sheet.delay = other_delay(&sheet, r),
            Change::Taps => sheet = self.other_taps(r),
            Change::Judged => sheet = generate::spoiled(r, sheet),
            Change::Faults => sheet = self.faults(sheet, r),
        }
        sheet
    }

    fn period_at(&self, sheet: &mut Sheet, r: &mut Random) {
        let period = self.state.period as i64;
        match r.below(5) {
            0 => set_min(sheet, period),
            1 => set_max(sheet, period),
            2 => set_min(sheet, period - 1),
            3 => set_max(sheet, period + 1),
            _ => {
                set_min(sheet, period);
                set_max(sheet, period);
            }
        }
    }

    fn period_outside(&self, sheet: &mut Sheet, r: &mut Random) {
        let period = self.state.period as i64;
        if period == HIGH || period > LOW && r.one_in(2) {
            set_max(sheet, period - 1);
        } else {
            set_min(sheet, period + 1);
        }
    }

    /// An integrator of 0 is within every bound; then the period does for it.
    fn integrator_outside(&self, sheet: &mut Sheet, r: &mut Random) {
        match self.least_bound() {
            0 => self.period_outside(sheet, r),
            least => sheet.integrator_max = least - 1,
        }
    }

    /// The least bound that the integrator is within, or one that judging refuses.
    fn least_bound(&self) -> i32 {
        ((self.state.v.abs() + 0xffff) >> 16).min(1 << 22) as i32
    }

    /// Other taps, often next to the head of the line, with banks of nothing.
    pub fn other_taps(&self, r: &mut Random) -> Sheet {
        let taps = i128::from(self.sheet.taps);
        // the first that has the head within, and the one before it
        let near = (self.state.head / 2 + 1) * 2;
        let any = taps + 2 * i128::from(r.between(-6, 6));
        let mut wanted = vec![taps + 2, taps - 2, near, near - 2, any];
        wanted.retain(|other| *other != taps && (4..=64).contains(other));
        wanted.push(if taps == 4 { 6 } else { 4 });
        let taps = r.pick(&wanted) as u32;
        Sheet {
            taps,
            banks: std::array::from_fn(|_| vec![0; 64 * taps as usize]),
            ..self.sheet.clone()
        }
    }

    /// A sheet with faults of several kinds, or of some of them.
    pub fn faults(&self, mut sheet: Sheet, r: &mut Random) -> Sheet {
        match r.below(4) {
            0 => self.period_outside(&mut sheet, r),
            1 => self.integrator_outside(&mut sheet, r),
            _ => (),
        }
        match r.below(4) {
            0 => sheet.delay = r.pick(&[0, 25, 255]),
            1 => sheet.delay = other_delay(&sheet, r),
            _ => (),
        }
        match r.below(8) {
            0 => generate::spoiled(r, sheet),
            1 | 2 => judged(sheet, r),
            _ => sheet,
        }
    }
}

/// The least period, with those that it passes.
fn set_min(sheet: &mut Sheet, min: i64) {
    sheet.period_min = min as u32;
    sheet.period_nominal = sheet.period_nominal.max(sheet.period_min);
    sheet.period_max = sheet.period_max.max(sheet.period_min);
}

fn set_max(sheet: &mut Sheet, max: i64) {
    sheet.period_max = max as u32;
    sheet.period_nominal = sheet.period_nominal.min(sheet.period_max);
    sheet.period_min = sheet.period_min.min(sheet.period_max);
}

/// One of the loop's gains, or all of them.
fn gains(sheet: &mut Sheet, r: &mut Random) {
    let mut new = sheet.clone();
    set_gains(&mut new, r);
    match r.below(8) {
        0 => sheet.kp = new.kp,
        1 => sheet.kp_shift = new.kp_shift,
        2 => sheet.ki = new.ki,
        3 => sheet.ki_shift = new.ki_shift,
        _ => *sheet = new,
    }
}

/// Gains with which errors of any size move the period, and bring it to its bounds at times.
fn set_gains(sheet: &mut Sheet, r: &mut Random) {
    sheet.kp = r.between(-4096, 4096) as i16;
    sheet.kp_shift = r.between(4, 16) as u8;
    sheet.ki = r.between(-4096, 4096) as i16;
    sheet.ki_shift = r.between(0, 8) as u8;
}

fn nominal(sheet: &mut Sheet, r: &mut Random) {
    let (a, b) = (sheet.period_min, sheet.period_max);
    sheet.period_nominal = ends(r, a.min(b).into(), a.max(b).into()) as u32;
}

/// One of the gain loop's fields, or all of them.
fn agc(sheet: &mut Sheet, r: &mut Random) {
    let which = r.below(4);
    if which == 0 || which == 3 {
        sheet.agc_init = ends(r, 0, (1 << 24) - 1) as u32;
    }
    if which == 1 || which == 3 {
        sheet.agc_target = r.pick(&[1 << 10, 1 << 14, 1 << 18, u32::MAX]);
    }
    if which == 2 || which == 3 {
        sheet.agc_shift = ends(r, 0, 8) as u8;
    }
}

fn rest(sheet: &mut Sheet, r: &mut Random) {
    match r.below(5) {
        0 => sheet.nco_step = r.next() as i32,
        1 => sheet.ted_shift = ends(r, 0, 30) as u8,
        2 => sheet.bits = ends(r, 2, 8) as u8,
        3 => sheet.q_shift = ends(r, 0, 15) as u8,
        _ => sheet.block_log2 = ends(r, 8, 15) as u8,
    }
}

/// A field other than the taps and the delay, one up or down; often kp, or block_log2, which nothing reads.
fn one_field(sheet: &Sheet, r: &mut Random) -> Sheet {
    let mut fields = sheet.fields();
    let any = r.between(1, FIELDS.len() as i64 - 2) as usize;
    let at = r.pick(&[6, 16, any, any]);
    let (low, high) = FIELDS[at];
    fields[at] = match fields[at] + r.pick(&[-1, 1]) {
        value if value < low => low + 1,
        value if value > high => high - 1,
        value => value,
    };
    Sheet {
        banks: sheet.banks.clone(),
        ..Sheet::of(&fields)
    }
}

fn many(sheet: &mut Sheet, r: &mut Random) {
    set_gains(sheet, r);
    nominal(sheet, r);
    agc(sheet, r);
    for _ in 0..3 {
        rest(sheet, r);
    }
}

/// One of the banks, or all: rows of another phase, or of the other sign. What judging says of them stays.
fn banks(sheet: &mut Sheet, r: &mut Random) {
    let taps = sheet.taps as usize;
    let one = r.below(4) as usize;
    for (n, bank) in sheet.banks.iter_mut().enumerate() {
        if one < 3 && n != one {
            continue;
        }
        if r.one_in(2) {
            let rows = 1 + r.below(62) as usize;
            let end = bank.len();
            bank.rotate_left(end.min(rows * taps));
        } else {
            bank.iter_mut().for_each(|c| *c = c.wrapping_neg());
        }
    }
}

/// A delay that judging accepts, often next to the sheet's.
fn other_delay(sheet: &Sheet, r: &mut Random) -> u8 {
    let (delay, any) = (sheet.delay, generate::any_delay(r));
    let mut others = vec![delay.wrapping_sub(1), delay.wrapping_add(1), any, 24];
    others.retain(|other| DELAYS.contains(other) && *other != delay);
    match others[..] {
        [] => 1,
        _ => r.pick(&others),
    }
}

/// One thing that judging refuses; under few taps, where the detector has all places, now and then nothing.
fn judged(mut sheet: Sheet, r: &mut Random) -> Sheet {
    match r.below(13) {
        0 => sheet.period_min = 1 << 24,
        1 => sheet.period_max = 1 << 26,
        2 => sheet.bits = r.pick(&[1, 9]),
        3 => sheet.q_shift = 16,
        4 => sheet.block_log2 = r.pick(&[7, 16]),
        5 => sheet.agc_init = 1 << 24,
        6 => sheet.ted_shift = 31,
        7 => sheet.kp_shift = 41,
        8 => sheet.ki_shift = 41,
        9 => sheet.agc_shift = 64,
        10 => set_first(&mut sheet.banks[2], 131072),
        11 => set_first(&mut sheet.banks[2], -131072),
        _ if sheet.taps > 8 => set_first(&mut sheet.banks[r.below(2) as usize], 1),
        _ => (),
    }
    sheet
}

fn set_first(bank: &mut [i32], coefficient: i32) {
    if let Some(first) = bank.first_mut() {
        *first = coefficient;
    }
}

/// A sheet whose loops move, so that what a commit may not touch shows in the symbols behind it: one to two samples a symbol,
/// room on both sides of the nominal period, errors of middling size, and gains for them. A gain that is to stay stays, with
/// the banks that it is for.
pub fn liven(sheet: &mut Sheet, keeps_gain: bool, r: &mut Random) {
    let nominal = r.between(LOW + (1 << 18), 1 << 25);
    let room = 1 << r.between(12, 23);
    sheet.period_nominal = nominal as u32;
    sheet.period_min = (nominal - room).max(LOW) as u32;
    sheet.period_max = (nominal + room).min(HIGH) as u32;
    sheet.integrator_max = r.pick(&[1 << 8, 1 << 14, 1 << 18, (1 << 22) - 1]);
    sheet.ted_shift = r.between(6, 14) as u8;
    set_gains(sheet, r);
    if keeps_gain {
        return;
    }
    sheet.agc_init = r.between(1 << 14, 1 << 20) as u32;
    sheet.agc_target = 1 << r.between(10, 18);
    sheet.agc_shift = r.between(0, 4) as u8;
    if !r.one_in(4) {
        thin_out(sheet);
    }
}

/// Leaves in each row of the banks what is largest there: banks are the longest rows of a list, and are written many times.
fn thin_out(sheet: &mut Sheet) {
    for row in sheet
        .banks
        .iter_mut()
        .flat_map(|bank| bank.chunks_mut(sheet.taps as usize))
    {
        let most = row.iter().map(|c| c.unsigned_abs()).max();
        for c in row {
            if Some(c.unsigned_abs()) < most {
                *c = 0;
            }
        }
    }
}
