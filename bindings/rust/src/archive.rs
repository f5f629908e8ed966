//! The archive's calls as they are, over slices of any length: what include/huntelm.h has for C underneath its structs. [`Params`](crate::Params) and
//! [`Frontend`](crate::Frontend) stand above them and are what a program needs; the calls are for those who keep sheets and states as places, or who test
//! the archive. A call answers 0 or the number of a refusal; where it refuses, no place that it was lent is changed.
//!
//! [`Sheet::block`] may take fewer pairs than it is offered, where it is lent few places for symbols. Its caller goes on from how many it took: see there.
//!
//! All `unsafe` of the crate is here. Each call asks two things of its caller: a pointer is good for its length, and what is lent for writing overlaps
//! nothing else that is lent. A slice gives the first, and Rust's borrows the second: a `&mut` beside other references. Nothing else can be wrong, since
//! a call answers whatever values and lengths it is lent. It keeps no pointer and does not unwind. So every function here is safe for every argument.
#![allow(unsafe_code)]

/// Places of a sheet.
pub const SHEET: usize = 18;

/// Places of a state: registers, positions, counts, and the 18 fields of the sheet that it holds.
pub const STATE: usize = 28;

/// Numbers of a state's line: 64 pairs I, Q.
pub const LINE: usize = 128;

/// Numbers of a state's errors: a ring of 24 pairs e, err.
pub const ERRORS: usize = 48;

/// Places of a symbol.
pub const SYMBOL: usize = 20;

/// Places that a block's answer has at least.
pub const BLOCK: usize = 4;

/// The place of a block's answer that has how many symbols were written.
pub const BLOCK_COUNT: usize = 0;

/// The place of a block's answer that has how many pairs were taken.
pub const BLOCK_TAKEN: usize = 1;

/// The place of a block's answer that has how many numbers of its symbols were clipped, 12 a symbol at most: see [`Block::clips`](crate::Block::clips).
pub const BLOCK_CLIPS: usize = 2;

/// Where the fields of the held sheet begin among the places of a state.
pub const STATE_SHEET: usize = 10;

/// The other places of a state that are read here. All others are the archive's alone.
pub(crate) const STATE_T: usize = 1;
pub(crate) const STATE_SAMPLES: usize = 9;

unsafe extern "C" {
    fn huntelm_judge(
        sheet: *const i64,
        sheet_len: usize,
        h: *const i32,
        h_len: usize,
        g: *const i32,
        g_len: usize,
        k: *const i32,
        k_len: usize,
    ) -> u32;
    fn huntelm_start(
        sheet: *const i64,
        sheet_len: usize,
        h: *const i32,
        h_len: usize,
        g: *const i32,
        g_len: usize,
        k: *const i32,
        k_len: usize,
        state: *mut i64,
        state_len: usize,
        line: *mut i32,
        line_len: usize,
        errors: *mut i32,
        errors_len: usize,
    ) -> u32;
    fn huntelm_block(
        sheet: *const i64,
        sheet_len: usize,
        h: *const i32,
        h_len: usize,
        g: *const i32,
        g_len: usize,
        k: *const i32,
        k_len: usize,
        state: *mut i64,
        state_len: usize,
        line: *mut i32,
        line_len: usize,
        errors: *mut i32,
        errors_len: usize,
        values: *const i16,
        values_len: usize,
        out: *mut i64,
        out_len: usize,
        answer: *mut i64,
        answer_len: usize,
    ) -> u32;
    fn huntelm_read(
        sheet: *const i64,
        sheet_len: usize,
        h: *const i32,
        h_len: usize,
        g: *const i32,
        g_len: usize,
        k: *const i32,
        k_len: usize,
        state: *const i64,
        state_len: usize,
        line: *const i32,
        line_len: usize,
        errors: *const i32,
        errors_len: usize,
        answer: *mut i64,
        answer_len: usize,
    ) -> u32;
    fn huntelm_ask(
        sheet: *const i64,
        sheet_len: usize,
        h: *const i32,
        h_len: usize,
        g: *const i32,
        g_len: usize,
        k: *const i32,
        k_len: usize,
        state: *const i64,
        state_len: usize,
        line: *const i32,
        line_len: usize,
        errors: *const i32,
        errors_len: usize,
        answer: *mut i64,
        answer_len: usize,
    ) -> u32;
    fn huntelm_commit(
        ticket: u64,
        sheet: *const i64,
        sheet_len: usize,
        h: *const i32,
        h_len: usize,
        g: *const i32,
        g_len: usize,
        k: *const i32,
        k_len: usize,
        state: *mut i64,
        state_len: usize,
        line: *const i32,
        line_len: usize,
        errors: *const i32,
        errors_len: usize,
    ) -> u32;
    fn huntelm_offset(
        sheet: *const i64,
        sheet_len: usize,
        h: *const i32,
        h_len: usize,
        g: *const i32,
        g_len: usize,
        k: *const i32,
        k_len: usize,
        period: u32,
        answer: *mut i64,
        answer_len: usize,
    ) -> u32;
    fn huntelm_sample(
        floats: *const f32,
        floats_len: usize,
        values: *mut i16,
        values_len: usize,
    ) -> u32;
    fn huntelm_design(
        rates: *const f64,
        rates_len: usize,
        fields: *const i64,
        fields_len: usize,
        h: *const i32,
        h_len: usize,
        g: *const i32,
        g_len: usize,
        k: *const i32,
        k_len: usize,
        sheet: *mut i64,
        sheet_len: usize,
    ) -> u32;
}

/// A state as the calls are lent it to read: [`STATE`] places, [`LINE`] numbers of the line and [`ERRORS`] of the errors. Slices of other lengths are no
/// state, and are refused (9). A state holds the fields of its sheet, and no banks.
#[derive(Debug, Clone, Copy)]
pub struct State<'a> {
    /// Registers, positions, counts and the held sheet.
    pub places: &'a [i64],
    /// The line: I and Q of each pair.
    pub line: &'a [i32],
    /// The ring of waiting errors: e and err of each pair.
    pub errors: &'a [i32],
}

/// The same to write.
#[derive(Debug)]
pub struct StateMut<'a> {
    /// Registers, positions, counts and the held sheet.
    pub places: &'a mut [i64],
    /// The line: I and Q of each pair.
    pub line: &'a mut [i32],
    /// The ring of waiting errors: e and err of each pair.
    pub errors: &'a mut [i32],
}

/// A sheet's places and its banks, as the calls are lent them.
#[derive(Debug, Clone, Copy)]
pub struct Sheet<'a> {
    /// The 18 fields, in the order of [`Params`](crate::Params).
    pub places: &'a [i64],
    /// Bank h, row by row.
    pub h: &'a [i32],
    /// Bank g, likewise.
    pub g: &'a [i32],
    /// Bank k, likewise.
    pub k: &'a [i32],
}

impl Sheet<'_> {
    /// Judges the sheet.
    pub fn judge(self) -> u32 {
        // SAFETY: slices, none of them for writing.
        unsafe {
            huntelm_judge(
                self.places.as_ptr(),
                self.places.len(),
                self.h.as_ptr(),
                self.h.len(),
                self.g.as_ptr(),
                self.g.len(),
                self.k.as_ptr(),
                self.k.len(),
            )
        }
    }

    /// Writes a fresh state.
    pub fn start(self, state: StateMut) -> u32 {
        // SAFETY: slices; those for writing are `&mut`.
        unsafe {
            huntelm_start(
                self.places.as_ptr(),
                self.places.len(),
                self.h.as_ptr(),
                self.h.len(),
                self.g.as_ptr(),
                self.g.len(),
                self.k.as_ptr(),
                self.k.len(),
                state.places.as_mut_ptr(),
                state.places.len(),
                state.line.as_mut_ptr(),
                state.line.len(),
                state.errors.as_mut_ptr(),
                state.errors.len(),
            )
        }
    }

    /// Takes as many pairs of `values`, I before Q, as `out` has room for a symbol each; takes the state on, and writes the symbols to `out`. The first three
    /// of the four or more places of `answer` become how many symbols were written, how many pairs were taken and how many numbers of the symbols were clipped
    /// ([`BLOCK_COUNT`], [`BLOCK_TAKEN`], [`BLOCK_CLIPS`]); the others stay as they were.
    ///
    /// The sheet has to be the one that the state holds: one that differs in a field is refused (9). Other banks are not noticed, since no state holds any: the
    /// symbols are then theirs.
    ///
    /// The pairs behind those that were taken were not looked at. A caller that does not offer them again loses them, and no refusal says so. Where the call is
    /// not refused and was offered a pair, it takes at least one, so this comes to its end:
    ///
    /// ```
    /// use huntelm::archive::{BLOCK, BLOCK_COUNT, BLOCK_TAKEN, SYMBOL, Sheet, StateMut};
    ///
    /// fn all(sheet: Sheet, state: StateMut, mut values: &[i16], symbols: &mut Vec<i64>) -> u32 {
    ///     let StateMut { places, line, errors } = state;
    ///     let mut out = [0; 2 * SYMBOL];
    ///     let mut answer = [0; BLOCK];
    ///     while !values.is_empty() {
    ///         let refused = sheet.block(StateMut { places, line, errors }, values, &mut out, &mut answer);
    ///         if refused != 0 {
    ///             return refused;
    ///         }
    ///         symbols.extend(&out[..SYMBOL * answer[BLOCK_COUNT] as usize]);
    ///         values = &values[2 * answer[BLOCK_TAKEN] as usize..];
    ///     }
    ///     0
    /// }
    /// ```
    pub fn block(
        self,
        state: StateMut,
        values: &[i16],
        out: &mut [i64],
        answer: &mut [i64],
    ) -> u32 {
        // SAFETY: slices; those for writing are `&mut`.
        unsafe {
            huntelm_block(
                self.places.as_ptr(),
                self.places.len(),
                self.h.as_ptr(),
                self.h.len(),
                self.g.as_ptr(),
                self.g.len(),
                self.k.as_ptr(),
                self.k.len(),
                state.places.as_mut_ptr(),
                state.places.len(),
                state.line.as_mut_ptr(),
                state.line.len(),
                state.errors.as_mut_ptr(),
                state.errors.len(),
                values.as_ptr(),
                values.len(),
                out.as_mut_ptr(),
                out.len(),
                answer.as_mut_ptr(),
                answer.len(),
            )
        }
    }

    /// Writes the period of a state, its gain and its number of symbols. The sheet has to be the one that the state holds, as in [`block`](Self::block).
    pub fn read(self, state: State, answer: &mut [i64]) -> u32 {
        // SAFETY: slices; the one for writing is a `&mut`.
        unsafe {
            huntelm_read(
                self.places.as_ptr(),
                self.places.len(),
                self.h.as_ptr(),
                self.h.len(),
                self.g.as_ptr(),
                self.g.len(),
                self.k.as_ptr(),
                self.k.len(),
                state.places.as_ptr(),
                state.places.len(),
                state.line.as_ptr(),
                state.line.len(),
                state.errors.as_ptr(),
                state.errors.len(),
                answer.as_mut_ptr(),
                answer.len(),
            )
        }
    }

    /// Asks whether this sheet may be put into a state, and writes the ticket for [`commit`](Self::commit) to the first place of `answer`: the number of the
    /// state's symbols. It refuses 18 and 19 of this sheet's places; then what [`Frontend::ask`](crate::Frontend::ask) refuses, where 9 of slices that are no
    /// state comes before 29 of another delay; then 11 where there is no place for the ticket.
    pub fn ask(self, state: State, answer: &mut [i64]) -> u32 {
        // SAFETY: slices; the one for writing is a `&mut`.
        unsafe {
            huntelm_ask(
                self.places.as_ptr(),
                self.places.len(),
                self.h.as_ptr(),
                self.h.len(),
                self.g.as_ptr(),
                self.g.len(),
                self.k.as_ptr(),
                self.k.len(),
                state.places.as_ptr(),
                state.places.len(),
                state.line.as_ptr(),
                state.line.len(),
                state.errors.as_ptr(),
                state.errors.len(),
                answer.as_mut_ptr(),
                answer.len(),
            )
        }
    }

    /// Puts this sheet into a state: its fields become the held ones, from place [`STATE_SHEET`] on, and nothing else changes. Line and errors are only read.
    /// It refuses what [`ask`](Self::ask) refuses, but for 11; then 28 where the ticket is not the number of the state's symbols.
    pub fn commit(self, ticket: u64, places: &mut [i64], line: &[i32], errors: &[i32]) -> u32 {
        // SAFETY: slices; the one for writing is a `&mut`.
        unsafe {
            huntelm_commit(
                ticket,
                self.places.as_ptr(),
                self.places.len(),
                self.h.as_ptr(),
                self.h.len(),
                self.g.as_ptr(),
                self.g.len(),
                self.k.as_ptr(),
                self.k.len(),
                places.as_mut_ptr(),
                places.len(),
                line.as_ptr(),
                line.len(),
                errors.as_ptr(),
                errors.len(),
            )
        }
    }

    /// Writes how fast a sender of this period is.
    pub fn offset(self, period: u32, answer: &mut [i64]) -> u32 {
        // SAFETY: slices; the one for writing is a `&mut`.
        unsafe {
            huntelm_offset(
                self.places.as_ptr(),
                self.places.len(),
                self.h.as_ptr(),
                self.h.len(),
                self.g.as_ptr(),
                self.g.len(),
                self.k.as_ptr(),
                self.k.len(),
                period,
                answer.as_mut_ptr(),
                answer.len(),
            )
        }
    }
}

/// Writes the values of float samples, I and Q in turn.
pub fn sample(floats: &[f32], values: &mut [i16]) -> u32 {
    // SAFETY: slices; the one for writing is a `&mut`.
    unsafe {
        huntelm_sample(
            floats.as_ptr(),
            floats.len(),
            values.as_mut_ptr(),
            values.len(),
        )
    }
}

/// A design's places and its banks, as the call is lent them.
#[derive(Debug, Clone, Copy)]
pub struct Design<'a> {
    /// sample_rate, symbol_rate, carrier_offset, trim and agc_rms.
    pub rates: &'a [f64],
    /// taps, bits, block_log2, kp, kp_shift, ki, ki_shift and q_shift.
    pub fields: &'a [i64],
    /// Bank h, row by row.
    pub h: &'a [i32],
    /// Bank g, likewise.
    pub g: &'a [i32],
    /// Bank k, likewise.
    pub k: &'a [i32],
}

impl Design<'_> {
    /// Writes the places of the sheet that the design makes.
    pub fn sheet(self, sheet: &mut [i64]) -> u32 {
        // SAFETY: slices; the one for writing is a `&mut`.
        unsafe {
            huntelm_design(
                self.rates.as_ptr(),
                self.rates.len(),
                self.fields.as_ptr(),
                self.fields.len(),
                self.h.as_ptr(),
                self.h.len(),
                self.g.as_ptr(),
                self.g.len(),
                self.k.as_ptr(),
                self.k.len(),
                sheet.as_mut_ptr(),
                sheet.len(),
            )
        }
    }
}
