//! What the archive is lent here: sheets, states and designs of any lengths, also wrong ones, and the calls of bindings/rust on them.

use huntelm::archive::{self, ERRORS, LINE, STATE};
use oracle::sheet::Sheet as Fields;
use oracle::state::State as Read;

/// A sheet with its banks h, g and k.
#[derive(Debug, Clone, PartialEq)]
pub struct Sheet {
    pub fields: Vec<i64>,
    pub banks: [Vec<i32>; 3],
}

impl From<&Fields> for Sheet {
    fn from(sheet: &Fields) -> Self {
        Self {
            fields: sheet.fields().to_vec(),
            banks: sheet.banks.clone(),
        }
    }
}

impl Sheet {
    pub fn lent(&self) -> archive::Sheet<'_> {
        let [h, g, k] = &self.banks;
        archive::Sheet {
            places: &self.fields,
            h,
            g,
            k,
        }
    }
}

/// A state's three slices.
#[derive(Debug, Clone, PartialEq)]
pub struct State {
    pub places: Vec<i64>,
    pub line: Vec<i32>,
    pub errors: Vec<i32>,
}

impl From<&Read> for State {
    fn from(state: &Read) -> Self {
        let numbers = |pairs: &[[i128; 2]]| pairs.iter().flatten().map(|n| *n as i32).collect();
        Self {
            places: state.places(),
            line: numbers(&state.line),
            errors: numbers(&state.errors),
        }
    }
}

impl State {
    /// As long as a state is, and nothing in it.
    pub fn zeros() -> Self {
        Self {
            places: vec![0; STATE],
            line: vec![0; LINE],
            errors: vec![0; ERRORS],
        }
    }

    pub fn lent(&mut self) -> archive::StateMut<'_> {
        archive::StateMut {
            places: &mut self.places,
            line: &mut self.line,
            errors: &mut self.errors,
        }
    }
}

/// A design with its banks h, g and k.
pub struct Design {
    pub rates: Vec<f64>,
    pub fields: Vec<i64>,
    pub banks: [Vec<i32>; 3],
}

impl Design {
    pub fn lent(&self) -> archive::Design<'_> {
        let [h, g, k] = &self.banks;
        archive::Design {
            rates: &self.rates,
            fields: &self.fields,
            h,
            g,
            k,
        }
    }
}
