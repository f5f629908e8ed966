//! The archive's own calls, with a sheet of the bindings and a state that a test can look into.

use huntelm::Params;
use huntelm::archive::{self, ERRORS, LINE, STATE, Sheet};

/// The sheet, by its places, with its banks.
pub fn lent<'a>(p: &'a Params, places: &'a [i64]) -> Sheet<'a> {
    Sheet {
        places,
        h: &p.h,
        g: &p.g,
        k: &p.k,
    }
}

/// A state's three slices.
#[derive(Debug, Clone, Copy, PartialEq)]
pub struct State {
    pub places: [i64; STATE],
    pub line: [i32; LINE],
    pub errors: [i32; ERRORS],
}

impl<'a> From<&'a State> for archive::State<'a> {
    fn from(state: &'a State) -> Self {
        Self {
            places: &state.places,
            line: &state.line,
            errors: &state.errors,
        }
    }
}

impl<'a> From<&'a mut State> for archive::StateMut<'a> {
    fn from(state: &'a mut State) -> Self {
        Self {
            places: &mut state.places,
            line: &mut state.line,
            errors: &mut state.errors,
        }
    }
}

/// The state that it starts with.
pub fn fresh(p: &Params) -> State {
    let mut state = State {
        places: [7; STATE],
        line: [7; LINE],
        errors: [7; ERRORS],
    };
    assert_eq!(lent(p, &p.places()).start((&mut state).into()), 0);
    state
}
