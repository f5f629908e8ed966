//! A reading of docs/RULES.md, written apart from crates/: plain arithmetic in 128 bits and no care for speed. Of isdb-rs's
//! code it uses judging and the cosine table and nothing else. It answers where isdb-rs has no answer: the offset, clips, calls
//! that are refused, retunes, states that no run reaches. Where isdb-rs has one, the two are held against each other (both.rs).

mod retune;
mod way;

pub use retune::{Asked, Committed};

use crate::sheet::Sheet;
use crate::state::{RING, State};
use isdb_frontend::tables::cos_table;
use std::borrow::Cow;
use std::sync::LazyLock;

/// Numbers that a symbol writes.
pub const SYMBOL: usize = 20;

/// The cosine wheel.
static WHEEL: LazyLock<Vec<i128>> =
    LazyLock::new(|| cos_table().into_iter().map(i128::from).collect());

/// A sheet and what isdb-rs says of it.
#[derive(Clone)]
pub struct Reading<'a> {
    sheet: Cow<'a, Sheet>,
    refusal: Vec<i64>,
}

/// What a block answers.
pub struct Block {
    pub state: State,
    /// What it writes, from the first place on.
    pub output: Vec<i64>,
    /// How many pairs it took: none where it is refused.
    pub taken: usize,
    /// The clips of each symbol that it writes, from 0 to 12.
    pub symbol_clips: Vec<u64>,
    pub refusal: Vec<i64>,
}

impl Block {
    /// The symbols that were written.
    pub fn count(&self) -> usize {
        self.output.len() / SYMBOL
    }

    /// The clips of these symbols, added up.
    pub fn clips(&self) -> u64 {
        self.symbol_clips.iter().sum()
    }
}

/// What reading a state answers.
#[derive(Default)]
pub struct Read {
    /// Period, gain and symbols, the last as the signed number that has its bits.
    pub numbers: [i64; 3],
    pub refusal: Vec<i64>,
}

impl<'a> Reading<'a> {
    pub fn of(sheet: &'a Sheet) -> Self {
        Self::new(Cow::Borrowed(sheet))
    }

    /// The same of a sheet that is given away.
    pub fn owning(sheet: Sheet) -> Self {
        Self::new(Cow::Owned(sheet))
    }

    fn new(sheet: Cow<'a, Sheet>) -> Self {
        Self {
            refusal: sheet.judge(),
            sheet,
        }
    }

    pub fn sheet(&self) -> &Sheet {
        &self.sheet
    }

    /// What judging the sheet answers: a refusal's number and what it carries, or nothing.
    pub fn refusal(&self) -> &[i64] {
        &self.refusal
    }

    /// How much faster than nominal a sender of this period is: what the nominal period has more than this one, in
    /// thousand millionths of this one, to the nearest whole number; where two are as near, the one farther from zero.
    /// A slow sender has a number below zero. With it comes the number of the refusal or 0.
    pub fn offset(&self, period: u32) -> (i64, i64) {
        let sheet = self.sheet();
        if let Some(number) = self.refusal.first() {
            return (0, *number);
        }
        if !(sheet.period_min..=sheet.period_max).contains(&period) {
            return (0, 13);
        }
        let period = i128::from(period);
        let more = i128::from(sheet.period_nominal) - period;
        // The size is rounded by itself and the sign put back, so what is half a part or more goes away from zero.
        let size = more.abs() * 1_000_000_000;
        let (whole, rest) = (size / period, size % period);
        let nearest = if 2 * rest >= period { whole + 1 } else { whole };
        ((more.signum() * nearest) as i64, 0)
    }

    /// The state that starting gives: zeros under a sheet that is refused.
    pub fn start(&self) -> State {
        match self.refusal[..] {
            [] => State {
                period: self.sheet.period_nominal.into(),
                gain_acc: self.sheet.agc_init.into(),
                held: self.sheet.fields(),
                ..State::zeros()
            },
            _ => State::zeros(),
        }
    }

    /// A block of sample values on a state, into an output of so many places. Pairs behind those that it takes are not
    /// looked at.
    pub fn block(&self, state: &State, values: &[i16], places: usize) -> Block {
        let refusal = self.block_refusal(state, values.len(), places);
        let taken = match refusal[..] {
            [] => fitting(values.len() / 2, places),
            _ => 0,
        };
        let mut block = Block {
            state: state.clone(),
            output: Vec::new(),
            taken,
            symbol_clips: Vec::new(),
            refusal,
        };
        for pair in values.chunks(2).take(taken) {
            let pair = [pair[0].into(), pair[1].into()];
            if let Some(symbol) = self.sample(&mut block.state, pair) {
                let places = symbol
                    .places
                    .map(|n| i64::try_from(n).expect("64 bits hold it"));
                block.output.extend(places);
                block.symbol_clips.push(symbol.clips);
            }
        }
        block
    }

    /// Period, gain and symbols of a state.
    pub fn read(&self, state: &State) -> Read {
        let refusal = self.state_refusal(state);
        if !refusal.is_empty() {
            return Read {
                refusal,
                ..Read::default()
            };
        }
        Read {
            numbers: [state.period, state.gain_acc >> 8, state.symbols].map(|n| n as i64),
            refusal,
        }
    }

    fn block_refusal(&self, state: &State, values: usize, places: usize) -> Vec<i64> {
        let refusal = self.state_refusal(state);
        let fitting = fitting(values / 2, places) as i128;
        if !refusal.is_empty() {
            refusal
        } else if !values.is_multiple_of(2) {
            vec![10]
        } else if values > 0 && places < SYMBOL {
            vec![11]
        } else if state.samples + fitting > (1 << 63) - 1 {
            vec![12]
        } else {
            Vec::new()
        }
    }

    /// What a block and a reading refuse of a state: also one that holds another sheet.
    fn state_refusal(&self, state: &State) -> Vec<i64> {
        match self.refusal[..] {
            [] if !self.is_good(state) || state.held != self.sheet.fields() => vec![9],
            _ => self.refusal.clone(),
        }
    }

    /// Whether every position, register and count of the state is within its bounds.
    fn is_good(&self, state: &State) -> bool {
        let sheet = self.sheet();
        let most = self.integrator_bound();
        (0..i128::from(sheet.taps)).contains(&state.head)
            && (0..1 << 26).contains(&state.t_acc)
            && (-most..=most).contains(&state.v)
            && (sheet.period_min.into()..=sheet.period_max.into()).contains(&state.period)
            && (0..1 << 24).contains(&state.gain_acc)
            && state.waiting == state.symbols.min(sheet.delay.into())
            && (0..RING as i128).contains(&state.oldest)
            && state.symbols <= state.samples
    }
}

/// How many of so many pairs an output of so many places is for: all of them where each has the places of a symbol, else as
/// many as have. That fewer symbols than pairs come makes room for no more.
fn fitting(pairs: usize, places: usize) -> usize {
    if places < SYMBOL * pairs {
        places / SYMBOL
    } else {
        pairs
    }
}
