//! Refusals: the numbers that the archive answers, with a name and a text for each.

use std::error::Error;
use std::fmt;

/// Why a call was refused. A refused call has changed nothing.
#[derive(Debug, Clone, Copy, PartialEq, Eq, Hash)]
#[non_exhaustive]
pub enum Refusal {
    /// 1: taps are odd, below 4 or above 64.
    Taps = 1,
    /// 2: a bank is not 64 rows of taps long.
    BankLength = 2,
    /// 3: a coefficient is outside −131072 .. 131071.
    Coefficient = 3,
    /// 4: the magnitudes of a row sum to more than 131071.
    CoefficientSum = 4,
    /// 5: h or g is not 0 outside the detector's places, the eight in the middle of a row.
    DetectorTaps = 5,
    /// 6: the periods are not 2^24 < min ≤ nominal ≤ max < 2^26.
    PeriodBounds = 6,
    /// 7: a field is outside its range: bits 2..8, q_shift 0..15, block_log2 8..15, agc_init 0..2^24 − 1, integrator_max 0..2^22 − 1, ted_shift 0..30,
    /// kp_shift 0..40, ki_shift 0..40.
    Range = 7,
    /// 8: agc_shift is above 63.
    AgcShift = 8,
    /// 9: a state that cannot go on under the sheet given: another sheet than the one that it holds, or a position, count or register outside its bounds. In a
    /// retune, where the sheet is to be another one, the bounds alone: those of the period and of the integrator are the new sheet's. A
    /// [`Frontend`](crate::Frontend) meets it there and nowhere else.
    State = 9,
    /// 10: an odd number of sample values. Pairs never are one.
    OddInput = 10,
    /// 11: fewer places than the answer needs; of those for a block's symbols, fewer than the 20 of one symbol where there are samples to take. Only
    /// [`archive`](crate::archive) meets it: the rest of this crate lends enough.
    ShortOutput = 11,
    /// 12: more than 2^63 − 1 samples in all.
    TooManySamples = 12,
    /// 13: an offset was asked of a period outside period_min..period_max.
    Period = 13,
    /// 14: the design's samples per symbol are not within 1.0625 ≤ sps < 4.
    SamplesPerSymbol = 14,
    /// 15: the design's taps are odd, below 4 or above 64.
    DesignTaps = 15,
    /// 16: the design's bits are outside 2..8.
    DesignBits = 16,
    /// 17: the design's trim is outside −0.5..0.5.
    Trim = 17,
    /// 18: not the number of places that a sheet has, 18.
    PlaceCount = 18,
    /// 19: a number is outside the type of its place.
    PlaceType = 19,
    /// 27: a retune to other taps than the present ones.
    HeldTaps = 27,
    /// 28: a retune whose ticket is not the number of symbols so far.
    Ticket = 28,
    /// 29: delay is outside 1..24, or in a retune another one than the present. It is judged behind 8.
    Delay = 29,
}

/// All refusals.
const ALL: [Refusal; 22] = [
    Refusal::Taps,
    Refusal::BankLength,
    Refusal::Coefficient,
    Refusal::CoefficientSum,
    Refusal::DetectorTaps,
    Refusal::PeriodBounds,
    Refusal::Range,
    Refusal::AgcShift,
    Refusal::State,
    Refusal::OddInput,
    Refusal::ShortOutput,
    Refusal::TooManySamples,
    Refusal::Period,
    Refusal::SamplesPerSymbol,
    Refusal::DesignTaps,
    Refusal::DesignBits,
    Refusal::Trim,
    Refusal::PlaceCount,
    Refusal::PlaceType,
    Refusal::HeldTaps,
    Refusal::Ticket,
    Refusal::Delay,
];

impl Refusal {
    /// Its number, the same in every interface of the front end.
    ///
    /// ```
    /// assert_eq!(huntelm::Refusal::PeriodBounds.number(), 6);
    /// ```
    pub fn number(self) -> u32 {
        self as u32
    }

    /// The refusal that has this number. From 20 to 26 there is none: 20 is the symbol program's alone, and the others are not used.
    ///
    /// ```
    /// use huntelm::Refusal;
    ///
    /// assert_eq!(Refusal::from_number(12), Some(Refusal::TooManySamples));
    /// assert_eq!(Refusal::from_number(28), Some(Refusal::Ticket));
    /// assert_eq!(Refusal::from_number(0), None);
    /// ```
    pub fn from_number(number: u32) -> Option<Self> {
        ALL.into_iter().find(|refusal| refusal.number() == number)
    }

    /// What a call answered: 0, or a refusal's number.
    pub(crate) fn check(answer: u32) -> Result<(), Self> {
        match answer {
            0 => Ok(()),
            number => Err(Self::from_number(number).unwrap_or_else(|| {
                panic!(
                    "{number} is no refusal: the archive and this crate are of different versions"
                )
            })),
        }
    }
}

impl fmt::Display for Refusal {
    fn fmt(&self, f: &mut fmt::Formatter<'_>) -> fmt::Result {
        f.write_str(match self {
            Self::Taps => "taps are odd, below 4 or above 64",
            Self::BankLength => "a bank is not 64 rows of taps long",
            Self::Coefficient => "a coefficient is outside -131072..131071",
            Self::CoefficientSum => "the magnitudes of a bank's row sum to more than 131071",
            Self::DetectorTaps => "bank h or g is not 0 outside the detector's places",
            Self::PeriodBounds => "the periods are not 2^24 < min <= nominal <= max < 2^26",
            Self::Range => "a field of the sheet is outside its range",
            Self::AgcShift => "agc_shift is above 63",
            Self::State => "the state cannot go on under this sheet: it is outside its bounds, or, but for a retune, holds another one",
            Self::OddInput => "the number of sample values is odd",
            Self::ShortOutput => "there are too few places for the answer or for one symbol",
            Self::TooManySamples => "there are more than 2^63 - 1 samples in all",
            Self::Period => "the period is outside period_min..period_max",
            Self::SamplesPerSymbol => {
                "the design's samples per symbol are not within 1.0625 <= sps < 4"
            }
            Self::DesignTaps => "the design's taps are odd, below 4 or above 64",
            Self::DesignBits => "the design's bits are outside 2..8",
            Self::Trim => "the design's trim is outside -0.5..0.5",
            Self::PlaceCount => "the number of places is not the 18 of a sheet",
            Self::PlaceType => "a number is outside the type of its place",
            Self::HeldTaps => "a retune cannot change the taps",
            Self::Ticket => "the retune's ticket is not the number of symbols so far",
            Self::Delay => "the loop's delay is outside 1..24, or a retune would change it",
        })?;
        write!(f, " (refusal {})", self.number())
    }
}

impl Error for Refusal {}
