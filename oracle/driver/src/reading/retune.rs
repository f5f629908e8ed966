//! A retune: asking whether a sheet may be put into a state, and committing it.

use super::Reading;
use crate::sheet::Sheet;
use crate::state::State;

/// What asking answers.
pub struct Asked {
    /// The number of the state's symbols; 0 where asking is refused.
    pub ticket: u64,
    pub refusal: Vec<i64>,
}

/// What committing answers.
pub struct Committed {
    pub state: State,
    pub refusal: Vec<i64>,
}

impl Reading<'_> {
    /// Whether the sheet may be put into a state.
    pub fn ask(&self, state: &State) -> Asked {
        let refusal = self.retune_refusal(state);
        let ticket = match refusal[..] {
            [] => u64::try_from(state.symbols).expect("64 bits hold it"),
            _ => 0,
        };
        Asked { ticket, refusal }
    }

    /// Puts the sheet into a state.
    pub fn commit(&self, state: &State, ticket: u64) -> Committed {
        let mut refusal = self.retune_refusal(state);
        if refusal.is_empty() && i128::from(ticket) != state.symbols {
            refusal = vec![28];
        }
        let mut state = state.clone();
        if refusal.is_empty() {
            state.held = self.sheet.fields();
        }
        Committed { state, refusal }
    }

    /// What asking and committing refuse alike.
    fn retune_refusal(&self, state: &State) -> Vec<i64> {
        let held = Sheet::of(&state.held);
        if !self.refusal.is_empty() {
            self.refusal.clone()
        } else if self.sheet.delay != held.delay {
            vec![29]
        } else if !self.is_good(state) {
            vec![9]
        } else if self.sheet.taps != held.taps {
            vec![27]
        } else {
            Vec::new()
        }
    }
}
