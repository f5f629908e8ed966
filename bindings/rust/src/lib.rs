//! Huntelm: a receiver front end for satellite carriers. Samples go in, I and Q as 16-bit integers, and symbols come out: on which sample each fell, in
//! which sixty-fourth of it, with what period.
//!
//! The work is done by an archive of proved code, `libarchive.a`, which `make archive` writes at the top of the repository; this crate lends it slices.
//! Where the archive stands elsewhere, the environment variable `HUNTELM_ARCHIVE` names its folder, by its whole path, when the crate is built. It links on
//! x86-64 Linux.
//!
//! The names are those of isdb-rs's front end. What differs: a bank is one vector, row by row, and the taps are a field; the loop's delay, which is 24
//! symbols there, is one too; whatever can be refused answers a [`Refusal`]; [`Frontend::process`] answers a [`Block`], which says how much of the signal was
//! clipped; [`Frontend::retune`] gives a running front end other parameters; [`Params::design`] is given banks and gains.
//!
//! ```
//! use huntelm::{Frontend, Params};
//!
//! let h = [16384, 0, 0, 0].repeat(64);
//! let params = Params {
//!     taps: 4,
//!     nco_step: 0,
//!     period_nominal: 33554432,
//!     period_min: 32883343,
//!     period_max: 34225520,
//!     ted_shift: 8,
//!     kp: 0,
//!     kp_shift: 0,
//!     ki: 0,
//!     ki_shift: 0,
//!     integrator_max: 335544,
//!     agc_init: 262144,
//!     agc_target: 16384,
//!     agc_shift: 4,
//!     bits: 8,
//!     q_shift: 6,
//!     block_log2: 12,
//!     delay: 24,
//!     k: h.clone(),
//!     g: vec![0; 64 * 4],
//!     h,
//! };
//! let mut front = Frontend::new(params)?;
//! let mut symbols = Vec::new();
//! let block = front.process(&[[1000, -1000], [0, 0], [-1000, 1000]], &mut symbols)?;
//! assert_eq!((block.symbols, block.clips, block.taken), (2, 0, 3));
//! assert_eq!((symbols[1].sample, symbols[1].phase, symbols[1].q), (2, 0, [-16, 16]));
//! # Ok::<(), huntelm::Refusal>(())
//! ```

pub mod archive;
mod frontend;
mod input;
mod params;
mod refusal;

pub use frontend::{Block, Frontend, Symbol};
pub use input::input_sample;
pub use params::{Design, Gains, Params};
pub use refusal::Refusal;
