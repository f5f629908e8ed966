//! The sheet with its banks, and designs of which a sheet is made.

use crate::Refusal;
use crate::archive::{self, SHEET, Sheet};

/// The parameters of a run: a sheet of 18 fields, and its three banks.
///
/// A period is in samples, 2^24 to the sample. A bank is 64 rows of `taps` coefficients, row by row; row p serves the symbols that fall into the p-th
/// sixty-fourth of a sample, and its first coefficient multiplies the newest sample.
#[derive(Debug, Clone, PartialEq, Eq)]
pub struct Params {
    /// Coefficients of a row: even, 4 to 64.
    pub taps: u32,
    /// What the mixer turns each sample, 2^32 to the turn.
    pub nco_step: i32,
    /// The period at the start.
    pub period_nominal: u32,
    /// The shortest period that the loop sets, above 2^24: at most one symbol falls on a sample.
    pub period_min: u32,
    /// The longest period that the loop sets, below 2^26.
    pub period_max: u32,
    /// Shift of the timing error, 0 to 30.
    pub ted_shift: u8,
    /// Proportional gain of the timing loop.
    pub kp: i16,
    /// Its shift, 0 to 40.
    pub kp_shift: u8,
    /// Integral gain of the timing loop.
    pub ki: i16,
    /// Its shift, 0 to 40.
    pub ki_shift: u8,
    /// How far the integrator moves the period, 0 to 2^22 − 1.
    pub integrator_max: i32,
    /// Gain accumulator at the start, 0 to 2^24 − 1; 2^18 is a gain of 1.
    pub agc_init: u32,
    /// Power that the gain loop holds.
    pub agc_target: u32,
    /// Shift of the gain error, 0 to 63.
    pub agc_shift: u8,
    /// Bits of an output component, 2 to 8.
    pub bits: u8,
    /// Shift to these bits, 0 to 15.
    pub q_shift: u8,
    /// log2 of the symbols that are stored as one block, 8 to 15. No symbol depends on it.
    pub block_log2: u8,
    /// The loop's delay in symbols, 1 to 24: the errors of symbol n correct period and gain right before symbol n + delay is made. So the first symbols,
    /// delay of them, have the period and the gain of the start.
    pub delay: u8,
    /// Bank of the matched filter, for the timing detector.
    pub h: Vec<i32>,
    /// Bank of its derivative, for the timing detector.
    pub g: Vec<i32>,
    /// Bank of the output.
    pub k: Vec<i32>,
}

/// What a receiver is built for. [`Params::design`] makes the parameters of it.
#[derive(Debug, Clone, Copy, PartialEq)]
pub struct Design {
    /// Samples a second.
    pub sample_rate: f64,
    /// Symbols a second.
    pub symbol_rate: f64,
    /// How far the carrier is off, in Hz. The mixer removes it.
    pub carrier_offset: f64,
    /// Where the output is taken, in symbols from where the timing loop locks: −0.5 to 0.5.
    pub trim: f64,
    /// Level that the gain loop holds, 1 for the full scale of 16 bits.
    pub agc_rms: f64,
    /// As in [`Params`].
    pub taps: u32,
    /// As in [`Params`].
    pub bits: u8,
    /// As in [`Params`].
    pub block_log2: u8,
}

/// The gains and shifts that a [`Design`] leaves open, as in [`Params`].
#[derive(Debug, Clone, Copy, PartialEq, Eq)]
pub struct Gains {
    /// Proportional gain of the timing loop.
    pub kp: i16,
    /// Its shift.
    pub kp_shift: u8,
    /// Integral gain of the timing loop.
    pub ki: i16,
    /// Its shift.
    pub ki_shift: u8,
    /// Shift to the bits of the output.
    pub q_shift: u8,
}

impl Params {
    /// Judges the sheet with its banks.
    ///
    /// # Errors
    ///
    /// 1 to 8, then 29: the first that applies.
    pub fn validate(&self) -> Result<(), Refusal> {
        Refusal::check(self.sheet(&self.places()).judge())
    }

    /// How fast a sender of this period is: (period_nominal − period) × 10^9 / period, to the nearest whole number, ties away from zero. That is its rate
    /// offset in parts per thousand million, positive where the sender is fast.
    ///
    /// The period of one symbol has the loop's proportional term in it, the correction for one noisy error, and jumps by thousands of parts in a million:
    /// its offset is noise. That of the mean over thousands of symbols, once the loop has locked, is the clock's:
    ///
    /// ```
    /// # use huntelm::{Params, Refusal, Symbol};
    /// fn clock_offset(params: &Params, symbols: &[Symbol]) -> Result<i64, Refusal> {
    ///     let count = symbols.len().max(1) as u64;
    ///     let sum: u64 = symbols.iter().map(|s| u64::from(s.period)).sum();
    ///     params.offset(((sum + count / 2) / count) as u32)
    /// }
    /// ```
    ///
    /// # Errors
    ///
    /// 1 to 8, then 29, as [`validate`](Self::validate) has them, then 13 for a period outside period_min..period_max.
    pub fn offset(&self, period: u32) -> Result<i64, Refusal> {
        let mut answer = [0];
        Refusal::check(self.sheet(&self.places()).offset(period, &mut answer))?;
        Ok(answer[0])
    }

    /// The parameters of a design, with banks and gains that the caller has chosen and a delay of 24. They are judged too.
    ///
    /// ```
    /// use huntelm::{Design, Gains, Params};
    ///
    /// let design = Design {
    ///     sample_rate: 40e6,
    ///     symbol_rate: 20e6,
    ///     carrier_offset: 0.0,
    ///     trim: 0.0,
    ///     agc_rms: 0.25,
    ///     taps: 4,
    ///     bits: 8,
    ///     block_log2: 12,
    /// };
    /// let gains = Gains { kp: 0, kp_shift: 0, ki: 0, ki_shift: 0, q_shift: 6 };
    /// let h = [16384, 0, 0, 0].repeat(64);
    /// let g = vec![0; 256];
    /// let params = Params::design(&design, &gains, h.clone(), g, h)?;
    /// assert_eq!((params.period_nominal, params.delay), (33554432, 24));
    /// # Ok::<(), huntelm::Refusal>(())
    /// ```
    ///
    /// # Errors
    ///
    /// 14 to 17 for the design, then 1 to 8 for the sheet that it makes; 29 comes behind them and is never met, since the delay is 24.
    pub fn design(
        design: &Design,
        gains: &Gains,
        h: Vec<i32>,
        g: Vec<i32>,
        k: Vec<i32>,
    ) -> Result<Self, Refusal> {
        let rates = [
            design.sample_rate,
            design.symbol_rate,
            design.carrier_offset,
            design.trim,
            design.agc_rms,
        ];
        let fields = [
            design.taps.into(),
            design.bits.into(),
            design.block_log2.into(),
            gains.kp.into(),
            gains.kp_shift.into(),
            gains.ki.into(),
            gains.ki_shift.into(),
            gains.q_shift.into(),
        ];
        let design = archive::Design {
            rates: &rates,
            fields: &fields,
            h: &h,
            g: &g,
            k: &k,
        };
        let mut places = [0; SHEET];
        Refusal::check(design.sheet(&mut places))?;
        Self::from_places(&places, h, g, k)
    }

    /// The parameters of 18 numbers, in the order of the fields above, and the banks. They are not judged.
    ///
    /// # Errors
    ///
    /// 18 for another number of places, then 19 for a number outside its field's type.
    pub fn from_places(
        places: &[i64],
        h: Vec<i32>,
        g: Vec<i32>,
        k: Vec<i32>,
    ) -> Result<Self, Refusal> {
        let places: &[i64; SHEET] = places.try_into().map_err(|_| Refusal::PlaceCount)?;
        Ok(Self {
            taps: field(places[0])?,
            nco_step: field(places[1])?,
            period_nominal: field(places[2])?,
            period_min: field(places[3])?,
            period_max: field(places[4])?,
            ted_shift: field(places[5])?,
            kp: field(places[6])?,
            kp_shift: field(places[7])?,
            ki: field(places[8])?,
            ki_shift: field(places[9])?,
            integrator_max: field(places[10])?,
            agc_init: field(places[11])?,
            agc_target: field(places[12])?,
            agc_shift: field(places[13])?,
            bits: field(places[14])?,
            q_shift: field(places[15])?,
            block_log2: field(places[16])?,
            delay: field(places[17])?,
            h,
            g,
            k,
        })
    }

    /// The 18 fields as numbers, in their order.
    pub fn places(&self) -> [i64; SHEET] {
        [
            self.taps.into(),
            self.nco_step.into(),
            self.period_nominal.into(),
            self.period_min.into(),
            self.period_max.into(),
            self.ted_shift.into(),
            self.kp.into(),
            self.kp_shift.into(),
            self.ki.into(),
            self.ki_shift.into(),
            self.integrator_max.into(),
            self.agc_init.into(),
            self.agc_target.into(),
            self.agc_shift.into(),
            self.bits.into(),
            self.q_shift.into(),
            self.block_log2.into(),
            self.delay.into(),
        ]
    }

    /// What the archive is lent: these places, with the banks.
    pub(crate) fn sheet<'a>(&'a self, places: &'a [i64]) -> Sheet<'a> {
        Sheet {
            places,
            h: &self.h,
            g: &self.g,
            k: &self.k,
        }
    }
}

/// The number of a place as its field's type has it.
fn field<T: TryFrom<i64>>(place: i64) -> Result<T, Refusal> {
    T::try_from(place).map_err(|_| Refusal::PlaceType)
}
