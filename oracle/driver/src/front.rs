//! Who runs a sheet from its start on: isdb-rs where it was built with the delay of the sheet, else the reading of
//! docs/RULES.md.

use crate::clips::Clips;
use crate::reading::{Reading, SYMBOL};
use crate::sheet::Sheet;
use crate::state::{Errors, Held, RING, State};
use isdb_frontend::fixed::{Frontend, Symbol};
use isdb_frontend::params::LOOP_DELAY;

/// The delay that isdb-rs was built with.
pub const DELAY: u8 = LOOP_DELAY as u8;

/// isdb-rs's front end. Its queue lets go of errors that are applied, and a state (RULES 3.1) keeps them until their place
/// is written again; so what the symbols report of their errors is kept beside it, and so are the pairs of which clips are
/// counted. Who asks for neither may run the front end itself.
pub struct Rust {
    pub front: Frontend,
    /// What it was started with.
    sheet: Sheet,
    /// The fields of the sheet in force.
    held: Held,
    samples: usize,
    errors: Errors,
    clips: Clips,
}

/// What isdb-rs makes of a block.
pub struct Made {
    /// The numbers of its symbols.
    pub symbols: Vec<i64>,
    /// The clips of each of them.
    pub clips: Vec<u64>,
}

impl Rust {
    /// A front end at its start; there is none for a sheet that is refused, or of another delay.
    pub fn start(sheet: &Sheet) -> Option<Self> {
        let runs = sheet.judge().is_empty() && sheet.delay == DELAY;
        runs.then(|| Self {
            front: Frontend::new(sheet.params()).expect("a sheet that was judged"),
            sheet: sheet.clone(),
            held: sheet.fields(),
            samples: 0,
            errors: [[0, 0]; RING],
            clips: Clips::start(),
        })
    }

    /// Whether there is a front end that has come to the same state and goes on under this sheet. isdb-rs takes no other sheet while
    /// it runs; but if the new one differs only in what nothing has read so far, a start with it would have led here. Starting
    /// reads first, then each sample, then each symbol, and then each symbol at which errors act.
    pub fn can_follow(&self, new: &Sheet) -> bool {
        let (old, front) = (&self.sheet, &self.front);
        new.period_nominal == old.period_nominal
            && (self.samples == 0 || new.nco_step == old.nco_step)
            && (front.symbols() == 0 || making(new) == making(old))
            && (front.symbols() <= DELAY.into() || steering(new) == steering(old))
    }

    /// That front end, behind a commit that was accepted, given all pairs so far.
    pub fn followed(&self, new: &Sheet, pairs: &[[i16; 2]]) -> Option<Self> {
        if !self.can_follow(new) {
            return None;
        }
        // only starting reads this one, so that another one is never read
        let mut rust = Self::start(&Sheet {
            agc_init: self.sheet.agc_init,
            ..new.clone()
        })?;
        rust.held = new.fields();
        rust.process(pairs);
        Some(rust)
    }

    /// What refuses a block and a reading under a sheet that was judged: nothing, or 9 under another one than that in force.
    pub fn refusal(&self, reading: &Reading) -> Vec<i64> {
        match reading.refusal() {
            [] if reading.sheet().fields() != self.held => vec![9],
            refusal => refusal.to_vec(),
        }
    }

    /// Whether it runs with these banks.
    pub fn has_banks_of(&self, sheet: &Sheet) -> bool {
        self.sheet.banks == sheet.banks
    }

    /// Runs a block.
    pub fn process(&mut self, pairs: &[[i16; 2]]) -> Made {
        let before = self.front.symbols() as usize;
        let mut symbols = Vec::new();
        self.front.process(pairs, &mut symbols);
        self.samples += pairs.len();
        for (j, symbol) in (before..).zip(&symbols) {
            self.errors[j % RING] = [symbol.e.into(), symbol.err.into()];
        }
        Made {
            clips: self.clips.of(self.front.params(), pairs, &symbols),
            symbols: symbols.iter().flat_map(numbers).collect(),
        }
    }

    pub fn state(&self) -> State {
        State::of(&self.front, self.held, &self.errors)
    }

    /// Period, gain and symbols.
    pub fn read(&self) -> [i64; 3] {
        let front = &self.front;
        [
            front.period().into(),
            front.gain().into(),
            front.symbols() as i64,
        ]
    }
}

/// What a symbol is made with.
fn making(sheet: &Sheet) -> (&[Vec<i32>; 3], [u8; 3], u32) {
    let shifts = [sheet.ted_shift, sheet.bits, sheet.q_shift];
    (&sheet.banks, shifts, sheet.agc_target)
}

/// What errors that are due act with, but for the nominal period.
fn steering(sheet: &Sheet) -> ([i16; 2], [u8; 3], [u32; 2], i32) {
    (
        [sheet.kp, sheet.ki],
        [sheet.kp_shift, sheet.ki_shift, sheet.agc_shift],
        [sheet.period_min, sheet.period_max],
        sheet.integrator_max,
    )
}

/// The reading, and the state that it handed back last.
pub struct Read<'a> {
    reading: Reading<'a>,
    state: State,
}

impl Read<'_> {
    /// Runs a block and gives the numbers of its symbols.
    pub fn process(&mut self, pairs: &[[i16; 2]]) -> Vec<i64> {
        let places = SYMBOL * pairs.len();
        let block = self
            .reading
            .block(&self.state, pairs.as_flattened(), places);
        assert_eq!(block.refusal, [], "a block of a run");
        assert_eq!(block.taken, pairs.len(), "there were places for all");
        self.state = block.state;
        block.output
    }
}

/// A run of an accepted sheet, of whatever delay.
pub enum Front<'a> {
    Rust(Box<Rust>),
    Read(Box<Read<'a>>),
}

impl<'a> Front<'a> {
    pub fn start(sheet: &'a Sheet) -> Self {
        match Rust::start(sheet) {
            Some(rust) => Self::Rust(Box::new(rust)),
            None => {
                let reading = Reading::of(sheet);
                let state = reading.start();
                Self::Read(Box::new(Read { reading, state }))
            }
        }
    }

    pub fn state(&self) -> State {
        match self {
            Self::Rust(rust) => rust.state(),
            Self::Read(run) => run.state.clone(),
        }
    }
}

/// A symbol's numbers, in the order of its places.
pub fn numbers(s: &Symbol) -> [i64; SYMBOL] {
    let [y, dy, yk, z, dz, zk] = [s.y, s.dy, s.yk, s.z, s.dz, s.zk].map(|v| v.map(i64::from));
    let q = s.q.map(i64::from);
    [
        s.sample as i64,
        s.phase.into(),
        y[0],
        y[1],
        dy[0],
        dy[1],
        yk[0],
        yk[1],
        s.gain.into(),
        s.period.into(),
        z[0],
        z[1],
        dz[0],
        dz[1],
        zk[0],
        zk[1],
        q[0],
        q[1],
        s.e.into(),
        s.err.into(),
    ]
}
