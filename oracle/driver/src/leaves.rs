//! Calls of the leaves of the path, with what each gives: `function,a,b,c,answer`, arguments that a function does not
//! take being 0. The numbers of the functions are those of crates/replay_leaves.
//!
//! round_shift, sat16 and the cosine table are isdb-rs's own; the others are the operators that its code applies. A
//! call that overflows there has no answer, so the arguments are drawn from where it does not.

use crate::random::Random;
use isdb_frontend::fixed::{round_shift, sat16};
use isdb_frontend::tables::cos_table;
use std::io::{self, Write};

pub fn write(seed: u64, count: u64, output: &mut impl Write) -> io::Result<()> {
    for (k, w) in cos_table().iter().enumerate() {
        writeln!(output, "7,{k},0,0,{w}")?;
    }
    let mut r = Random::new(seed);
    for _ in 0..count {
        let v = edge(&mut r);
        let (function, a, b, c, answer) = match r.below(7) {
            0 => {
                let s = r.between(0, 63) as u32;
                let half = if s == 0 { 0 } else { 1i64 << (s - 1) };
                if v.checked_add(half).is_none() {
                    continue;
                }
                (0, v, i64::from(s), 0, round_shift(v, s))
            }
            1 => {
                let s = r.between(0, 63);
                (1, v, s, 0, v >> s)
            }
            // No function has this number any more. What it took is drawn all the same: the other calls of a seed stay as they are stored.
            2 => {
                edge(&mut r);
                continue;
            }
            3 => {
                let (x, y) = (edge(&mut r), edge(&mut r));
                let (lo, hi) = (x.min(y), x.max(y));
                (3, v, lo, hi, v.clamp(lo, hi))
            }
            4 => (4, v, 0, 0, i64::from(sat16(v))),
            5 => (5, v, 0, 0, i64::from(v as u32)),
            _ => (6, v, 0, 0, i64::from(v as i32)),
        };
        writeln!(output, "{function},{a},{b},{c},{answer}")?;
    }
    Ok(())
}

/// A number of any size, or one next to a power of two, where clamps, halves and signs change.
fn edge(r: &mut Random) -> i64 {
    if r.one_in(2) {
        return r.any_i64();
    }
    let power = 1i64.wrapping_shl(r.below(64) as u32);
    let near = power.wrapping_add(r.between(-2, 2));
    if r.one_in(2) {
        near.wrapping_neg()
    } else {
        near
    }
}
