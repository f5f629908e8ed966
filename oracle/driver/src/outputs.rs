//! Outputs for the blocks of a run. Many are too short for the pairs that are offered, so that a block takes some of them and the
//! rest is offered again.

use crate::random::Random;
use crate::reading::SYMBOL;

/// The most places of a tiny output: those of two symbols and a few more.
const TINY: u64 = 45;
/// A short output has fewer places than this, however many pairs are offered.
const SHORT: usize = 3000;

/// What the outputs of a block, and of the calls that its rest needs, are like.
#[derive(Clone, Copy, PartialEq)]
pub enum Outputs {
    /// Enough places for all pairs, or some more; now and then at least 2,000.
    Enough,
    /// 0 to 45 places: for no pair, for one or for two.
    Tiny,
    /// Any number up to a few thousand, or up to a few more than are enough where that is less.
    Short,
    /// One of these at each call.
    Any,
}

impl Outputs {
    pub fn any(r: &mut Random) -> Self {
        match r.below(8) {
            0..=2 => Self::Enough,
            3 | 4 => Self::Tiny,
            5 | 6 => Self::Short,
            _ => Self::Any,
        }
    }

    /// The places for a call that is offered so many pairs.
    pub fn places(self, r: &mut Random, pairs: usize) -> usize {
        let enough = SYMBOL * pairs;
        match self {
            Self::Enough => {
                let places = enough + r.pick(&[0, 0, 1, 19, 45]);
                places.max(r.pick(&[0, 0, 0, 2000]))
            }
            Self::Tiny => r.below(TINY + 1) as usize,
            Self::Short => r.below(SHORT.min(enough + 3 * SYMBOL) as u64) as usize,
            Self::Any => r
                .pick(&[Self::Enough, Self::Tiny, Self::Short])
                .places(r, pairs),
        }
    }
}

/// What becomes of a block of so many values in a run that has not come to the end of what can be counted: how many pairs it
/// takes, or the number that refuses it. The reading has its own rule for this (reading.rs), and the two are held against
/// each other.
pub fn taken(values: usize, places: usize) -> Result<usize, u32> {
    match (values % 2, places / SYMBOL) {
        (1, _) => Err(10),
        (_, 0) if values > 0 => Err(11),
        (_, room) => Ok(room.min(values / 2)),
    }
}
