//! A sample's way: mixed, into the line, and out as a symbol when one is due.

use super::{Reading, SYMBOL, WHEEL};
use crate::state::{RING, State};

/// A sample, the unit of t and of periods.
const ONE: i128 = 1 << 24;

/// What the three filters give, or the scaling of it: I and Q each.
type Pairs = [[i128; 2]; 3];

pub(super) struct Symbol {
    /// What it writes.
    pub(super) places: [i128; SYMBOL],
    /// How many of its twelve clamps to 16 bits changed their number.
    pub(super) clips: u64,
}

impl Reading<'_> {
    /// Takes a pair, and gives the symbol that it brings, if it brings one.
    pub(super) fn sample(&self, s: &mut State, pair: [i128; 2]) -> Option<Symbol> {
        let mixed = mixed(s.nco, pair);
        s.nco = (s.nco + i128::from(self.sheet.nco_step)).rem_euclid(1 << 32);
        s.head = (s.head - 1).rem_euclid(self.sheet.taps.into());
        s.line[s.head as usize] = mixed;
        let symbol = (s.t_acc < ONE).then(|| self.symbol(s));
        s.t_acc -= ONE;
        s.samples += 1;
        symbol
    }

    fn symbol(&self, s: &mut State) -> Symbol {
        let sheet = self.sheet();
        let phase = s.t_acc >> 18;
        if s.waiting == i128::from(sheet.delay) {
            let errors = taken(s);
            self.steer(s, errors);
        }
        let sums = [0, 1, 2].map(|bank| self.sums(s, bank, phase as usize));
        let (filtered, clips) = sixteen(each(sums, |sum| rounded(sum, 14)));
        let gain = s.gain_acc >> 8;
        let (scaled, more_clips) = sixteen(each(filtered, |v| rounded(v * gain, 10)));
        let ([y, dy, yk], [z, dz, zk]) = (filtered, scaled);
        let end = 1 << (sheet.bits - 1);
        let q = zk.map(|v| rounded(v, sheet.q_shift).clamp(-end, end - 1));
        let e = ((z[0] * dz[0] + z[1] * dz[1]) >> sheet.ted_shift).clamp(-8388607, 8388607);
        let power = (zk[0] * zk[0] + zk[1] * zk[1]) >> 12;
        let err = signed(i128::from(sheet.agc_target) - power);
        let places = [
            s.samples, phase, y[0], y[1], dy[0], dy[1], yk[0], yk[1], gain, s.period, z[0], z[1],
            dz[0], dz[1], zk[0], zk[1], q[0], q[1], e, err,
        ];
        join(s, [e, err]);
        s.t_acc += s.period;
        s.symbols += 1;
        Symbol {
            places,
            clips: clips + more_clips,
        }
    }

    /// What errors that are due do to integrator, period and gain.
    fn steer(&self, s: &mut State, [e, err]: [i128; 2]) {
        let sheet = self.sheet();
        let most = self.integrator_bound();
        s.v = (s.v + rounded(i128::from(sheet.ki) * e, sheet.ki_shift)).clamp(-most, most);
        let nominal = i128::from(sheet.period_nominal);
        let period = nominal + (s.v >> 16) + rounded(i128::from(sheet.kp) * e, sheet.kp_shift);
        s.period = period.clamp(sheet.period_min.into(), sheet.period_max.into());
        s.gain_acc = (s.gain_acc + (err >> sheet.agc_shift)).clamp(0, (1 << 24) - 1);
    }

    pub(super) fn integrator_bound(&self) -> i128 {
        i128::from(self.sheet.integrator_max) << 16
    }

    /// The line through a row of a bank: I and Q.
    fn sums(&self, s: &State, bank: usize, phase: usize) -> [i128; 2] {
        let taps = self.sheet.taps as usize;
        let row = &self.sheet.banks[bank][phase * taps..(phase + 1) * taps];
        let sum = |part: usize| -> i128 {
            row.iter()
                .enumerate()
                .map(|(n, c)| i128::from(*c) * s.line[(s.head as usize + n) % taps][part])
                .sum()
        };
        [sum(0), sum(1)]
    }
}

fn mixed(nco: i128, [i, q]: [i128; 2]) -> [i128; 2] {
    let at = (nco >> 22) as usize;
    let (c, s) = (WHEEL[at], WHEEL[(at + 768) % 1024]);
    [(i * c - q * s + 16384) >> 15, (i * s + q * c + 16384) >> 15]
}

/// Takes out the errors that have waited longest. Their place keeps them.
fn taken(s: &mut State) -> [i128; 2] {
    let errors = s.errors[s.oldest as usize];
    s.oldest = (s.oldest + 1) % RING as i128;
    s.waiting -= 1;
    errors
}

/// Puts errors behind those that wait.
fn join(s: &mut State, errors: [i128; 2]) {
    s.errors[(s.oldest + s.waiting) as usize % RING] = errors;
    s.waiting += 1;
}

/// R: v divided by 2^s, to the nearest number, halves up.
fn rounded(v: i128, s: u8) -> i128 {
    if s == 0 { v } else { (v + (1 << (s - 1))) >> s }
}

fn each(pairs: Pairs, f: impl Fn(i128) -> i128) -> Pairs {
    pairs.map(|pair| pair.map(&f))
}

/// The six numbers clamped to 16 bits signed, and how many of them that changed.
fn sixteen(pairs: Pairs) -> (Pairs, u64) {
    let clamped = each(pairs, |v| v.clamp(-32768, 32767));
    let both = pairs.as_flattened().iter().zip(clamped.as_flattened());
    let changed = both.filter(|(before, after)| before != after).count();
    (clamped, changed as u64)
}

/// The number of 32 bits and a sign that differs from v by a multiple of 2^32.
fn signed(v: i128) -> i128 {
    (v + (1 << 31)).rem_euclid(1 << 32) - (1 << 31)
}
