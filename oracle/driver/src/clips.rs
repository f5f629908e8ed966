//! The clips of isdb-rs's symbols, counted apart from the reading of docs/RULES.md. isdb-rs has no such count, but its symbols say
//! all that one can be made of: on which sample each falls, with which row and gain, and what came of the clamps. What the
//! clamps were given follows from the pairs of the run, without the state that isdb-rs and the reading keep.

use isdb_frontend::fixed::Symbol;
use isdb_frontend::params::Params;
use isdb_frontend::tables::cos_table;

/// The pairs of a run from its start on.
pub struct Clips {
    wheel: Vec<i16>,
    mixed: Vec<[i64; 2]>,
}

impl Clips {
    pub fn start() -> Self {
        Self {
            wheel: cos_table(),
            mixed: Vec::new(),
        }
    }

    /// The clips of each symbol that isdb-rs made of these pairs, which are the next of the run.
    pub fn of(&mut self, p: &Params, pairs: &[[i16; 2]], symbols: &[Symbol]) -> Vec<u64> {
        for pair in pairs {
            self.mix(p, pair.map(i64::from));
        }
        symbols.iter().map(|symbol| self.count(p, symbol)).collect()
    }

    /// Turns a pair by as many steps as there were pairs before it.
    fn mix(&mut self, p: &Params, [i, q]: [i64; 2]) {
        let turned = (self.mixed.len() as i64).wrapping_mul(p.nco_step.into()) as u32;
        let at = (turned >> 22) as usize;
        let (c, s) = (self.wheel[at], self.wheel[(at + 768) % 1024]);
        let (c, s) = (i64::from(c), i64::from(s));
        let part = |v: i64| (2 * v + (1 << 15)).div_euclid(1 << 16);
        self.mixed.push([part(i * c - q * s), part(i * s + q * c)]);
    }

    fn count(&self, p: &Params, symbol: &Symbol) -> u64 {
        let s = symbol;
        let filters = [(&p.h, s.y, s.z), (&p.g, s.dy, s.dz), (&p.k, s.yk, s.zk)];
        let mut clips = 0;
        for (bank, filtered, scaled) in filters {
            let row = &bank[usize::from(s.phase)];
            for part in [0, 1] {
                let (y, z) = (filtered[part], scaled[part]);
                clips += clipped(self.sum(row, s.sample, part), 14, y);
                clips += clipped(i64::from(y) * i64::from(s.gain), 10, z);
            }
        }
        clips
    }

    /// A row over the pairs up to this one, the newest first; before the first pair there is nothing to add.
    fn sum(&self, row: &[i32], newest: u64, part: usize) -> i64 {
        let pairs = self.mixed[..=newest as usize].iter().rev();
        row.iter()
            .zip(pairs)
            .map(|(c, m)| i64::from(*c) * m[part])
            .sum()
    }
}

/// 0 where isdb-rs made the nearest whole number of v / 2^s, halves upward; else 1, and what it made has to be the end of 16 bits
/// on the side of v.
fn clipped(v: i64, s: u32, made: i16) -> u64 {
    let (rest, half) = (v - (i64::from(made) << s), 1 << (s - 1));
    if (-half..half).contains(&rest) {
        return 0;
    }
    let end = if rest < 0 { i16::MIN } else { i16::MAX };
    assert_eq!(made, end, "isdb-rs's number for {v} / 2^{s}");
    1
}
