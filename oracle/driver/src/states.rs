//! States that no run reaches: good ones with anything in the line and the queue, ones that are broken next to a bound, and ones
//! that hold any sheet. isdb-rs cannot be given a state, so the answers are those of the reading of docs/RULES.md.

use crate::generate::{self, ends};
use crate::random::Random;
use crate::reading::{Reading, SYMBOL};
use crate::retunes::changes::{At, Change};
use crate::rows::Rows;
use crate::sheet::{DELAYS, FIELDS, Sheet};
use crate::state::{Held, RING, State};
use std::io::{self, Write};

/// States under the banks of a sheet before there are others.
const SHARED: u64 = 25;
/// The most samples that can be counted.
const LAST: i64 = i64::MAX;

/// States of a kind of sheets. The banks are shared by some; each state has a delay of its own.
pub fn write(kind: &str, seed: u64, count: u64, output: &mut impl Write) -> io::Result<()> {
    let mut r = Random::new(seed);
    // retunes have numbers of their own, so that the blocks and readings of a seed stay as they are stored
    let mut of_retunes = Random::new(!seed);
    let mut rows = Rows::new(output);
    let mut sheet = Sheet::default();
    for n in 0..count {
        if n % SHARED == 0 {
            sheet = generate::sheet(kind, &mut r)?;
        } else if DELAYS.contains(&sheet.delay) {
            sheet.delay = generate::any_delay(&mut r);
        }
        rows.sheet(&sheet)?;
        let state = any_state(&mut r, &sheet);
        let reading = Reading::of(&sheet);
        calls(&mut rows, &reading, state, &mut r)?;
        if of_retunes.one_in(3) {
            retune(&mut rows, &reading, &mut of_retunes)?;
        }
    }
    Ok(())
}

/// A state, a block on it or two, and a reading.
fn calls(
    rows: &mut Rows<impl Write>,
    reading: &Reading,
    mut state: State,
    r: &mut Random,
) -> io::Result<()> {
    rows.give(&state)?;
    for _ in 0..r.pick(&[1, 1, 1, 2]) {
        let values = any_values(r);
        let places = any_places(r, values.len() / 2, countable(&state));
        let block = reading.block(&state, &values, places);
        rows.values(&values)?;
        rows.block(places, &block)?;
        state = block.state;
    }
    rows.state(&state)?;
    rows.read(&reading.read(&state))
}

/// A state that holds any sheet, the sheet asked for and committed, and what a reading and a block make of it then.
fn retune(rows: &mut Rows<impl Write>, reading: &Reading, r: &mut Random) -> io::Result<()> {
    let mut state = any_state(r, reading.sheet());
    state.held = any_held(r, reading.sheet(), &state);
    rows.give(&state)?;
    rows.asked(&reading.ask(&state))?;
    rows.read(&reading.read(&state))?;
    for _ in 0..r.pick(&[1, 2]) {
        let ticket = any_ticket(r, &state);
        let committed = reading.commit(&state, ticket);
        rows.committed(ticket, &committed)?;
        state = committed.state;
    }
    if r.one_in(2) {
        rows.state(&state)?;
    }
    rows.read(&reading.read(&state))?;
    let values = any_values(r);
    let places = any_places(r, values.len() / 2, countable(&state));
    rows.values(&values)?;
    rows.block(places, &reading.block(&state, &values, places))
}

/// The fields of the sheet itself, of one next to it, of one that no judging accepts, or nothing but zeros.
pub fn any_held(r: &mut Random, sheet: &Sheet, state: &State) -> Held {
    let any = FIELDS.map(|(low, high)| ends(r, low, high));
    match r.below(8) {
        0 => sheet.fields(),
        1 => [0; FIELDS.len()],
        2 => any,
        3 => Sheet {
            taps: sheet.taps,
            delay: sheet.delay,
            ..Sheet::of(&any)
        }
        .fields(),
        _ => {
            let change = r.pick(&Change::ALL);
            At::first(sheet, state).changed(change, r).fields()
        }
    }
}

/// The right ticket more often than not, or one next to it, the number of something else, or any.
pub fn any_ticket(r: &mut Random, state: &State) -> u64 {
    let (right, samples) = (state.symbols as u64, state.samples as u64);
    match r.below(8) {
        0 => right.wrapping_add_signed(r.pick(&[-1, 1])),
        1 => r.pick(&[0, samples, u64::MAX, right ^ 1 << 32, right ^ 1 << 63]),
        2 => r.next(),
        _ => right,
    }
}

/// A short block, now and then an empty one, or one of an odd number of values.
fn any_values(r: &mut Random) -> Vec<i16> {
    let odd = u64::from(r.one_in(8));
    let pairs = if r.one_in(8) { 0 } else { r.below(13) };
    (0..2 * pairs + odd).map(|_| any_value(r)).collect()
}

/// Places for the output of so many pairs, on a state that lets so many be counted: few, enough, far more than the pairs need, or
/// such that what is taken can just be counted or is one pair off that.
fn any_places(r: &mut Random, pairs: usize, countable: usize) -> usize {
    let enough = SYMBOL * pairs;
    match r.below(8) {
        0 => r.pick(&[0, 1, 19, 20, 21, 39, 40]),
        1 => r.below(enough as u64 + 1) as usize,
        2 => enough + r.below(45) as usize,
        3 => enough + 400 + r.below(1500) as usize,
        4..=6 if countable < pairs => {
            let taken = r.pick(&[countable.saturating_sub(1), countable, countable + 1]);
            SYMBOL * taken + r.pick(&[0, 0, 1, 19])
        }
        _ => enough,
    }
}

/// How many more samples can be counted.
fn countable(state: &State) -> usize {
    usize::try_from(i128::from(LAST) - state.samples).unwrap_or(0)
}

fn any_value(r: &mut Random) -> i16 {
    if r.one_in(4) {
        r.pick(&[i16::MIN, i16::MAX, 0, 1, -1])
    } else {
        r.next() as i16
    }
}

fn any_state(r: &mut Random, sheet: &Sheet) -> State {
    let mut state = good_state(r, sheet);
    if r.one_in(4) {
        spoil(r, sheet, &mut state);
    }
    state
}

/// The state with some of its parts changed, each to anything that refusal 9 lets pass. What is bound together changes together.
pub fn changed(r: &mut Random, sheet: &Sheet, state: &State) -> State {
    let mut state = state.clone();
    let other = good_state(r, sheet);
    for part in 0..10 {
        if r.one_in(2) {
            continue;
        }
        match part {
            0 => state.nco = other.nco,
            1 => state.t_acc = other.t_acc,
            2 => state.v = other.v,
            3 => state.period = other.period,
            4 => state.gain_acc = other.gain_acc,
            5 => {
                state.symbols = other.symbols;
                state.samples = other.samples;
                state.waiting = other.waiting;
            }
            6 => state.head = other.head,
            7 => state.oldest = other.oldest,
            8 => exchange(r, &mut state.line, &other.line),
            _ => exchange(r, &mut state.errors, &other.errors),
        }
    }
    state
}

/// Some of the pairs, or all of them.
fn exchange(r: &mut Random, pairs: &mut [[i128; 2]], other: &[[i128; 2]]) {
    let all = r.one_in(2);
    for (pair, other) in pairs.iter_mut().zip(other) {
        if all || r.one_in(4) {
            *pair = *other;
        }
    }
}

/// A state with every register anywhere within its bounds, at one of them, or next to it.
fn good_state(r: &mut Random, sheet: &Sheet) -> State {
    let most = i64::from(sheet.integrator_max) << 16;
    let (symbols, samples) = counts(r, sheet.delay);
    let line = r.pick(&[31, 31, 31, 16, 13, 0]);
    let errors = r.pick(&[31, 31, 23, 10]);
    State {
        nco: within(r, 0, u32::MAX.into()),
        t_acc: t(r),
        v: within(r, -most, most),
        period: within(r, sheet.period_min.into(), sheet.period_max.into()),
        gain_acc: within(r, 0, (1 << 24) - 1),
        symbols,
        head: within(r, 0, i64::from(sheet.taps).max(1) - 1),
        oldest: within(r, 0, RING as i64 - 1),
        waiting: symbols.min(sheet.delay.into()),
        samples,
        held: sheet.fields(),
        line: std::array::from_fn(|_| pair(r, line)),
        errors: std::array::from_fn(|_| pair(r, errors)),
    }
}

/// A number from one bound to the other, often next to one; the bounds of a sheet that is refused may be the wrong way
/// round.
fn within(r: &mut Random, a: i64, b: i64) -> i128 {
    ends(r, a.min(b), a.max(b)).into()
}

/// t, often where a symbol is just due or just not.
fn t(r: &mut Random) -> i128 {
    let one = 1 << 24;
    match r.below(3) {
        0 => within(r, 0, 4 * one - 1),
        1 => within(r, 0, one - 1),
        _ => r.between(one - 2, one + 2).into(),
    }
}

/// Two numbers with so many bits and a sign.
fn pair(r: &mut Random, bits: u32) -> [i128; 2] {
    let end = 1i64 << bits;
    [(); 2].map(|()| within(r, -end, end - 1))
}

/// Symbols, often around the number that can wait; and samples, which are at least as many and often around the last.
fn counts(r: &mut Random, delay: u8) -> (i128, i128) {
    let delay = i64::from(delay);
    let samples: i128 = match r.below(8) {
        0 => r.between(0, 60).into(),
        1 | 2 => (LAST - r.between(0, 13)).into(),
        3 => r.pick(&[LAST as u64, LAST as u64 + 1, u64::MAX]).into(),
        _ => r.any_i64().saturating_abs().into(),
    };
    let symbols = match r.below(4) {
        0 => samples,
        1 => r.next().into(),
        2 => r.between(0, 60).into(),
        _ => r.between(delay - 2, delay + 2).max(0).into(),
    };
    (symbols.min(samples), samples)
}

/// Breaks one bound of a state, next to it or far away.
pub fn spoil(r: &mut Random, sheet: &Sheet, state: &mut State) {
    let far: i128 = r.pick(&[i64::MAX as u64, 1 << 63, u64::MAX]).into();
    let signed: i128 = r.pick(&[i64::MIN, i64::MAX]).into();
    let most = i128::from(sheet.integrator_max) << 16;
    let taps = i128::from(sheet.taps);
    match r.below(8) {
        0 => state.head = r.pick(&[taps, taps, taps + 1, far]),
        1 => state.t_acc = r.pick(&[-1, 1 << 26, (1 << 26) + 1, signed]),
        2 => state.v = r.pick(&[most + 1, -most - 1, signed]),
        3 => {
            let (low, high) = (sheet.period_min, sheet.period_max);
            let past = [low.wrapping_sub(1), high.wrapping_add(1), 0, u32::MAX];
            state.period = r.pick(&past).into();
        }
        4 => state.gain_acc = r.pick(&[1 << 24, (1 << 24) + 1, u32::MAX.into()]),
        5 => state.waiting = wrong_waiting(r, sheet, state, far),
        6 => state.oldest = r.pick(&[RING as i128, RING as i128, RING as i128 + 1, far]),
        _ => {
            let delay = i128::from(sheet.delay);
            let below = |n: i128| (delay - n).max(0);
            state.samples = r.pick(&[0, below(2), below(1), delay, 1 << 32, LAST.into()]);
            state.symbols = r.pick(&[state.samples + 1, state.samples + 1, u64::MAX.into()]);
            state.waiting = state.symbols.min(delay);
        }
    }
}

/// A number of waiting errors next to the right one, at the other end of what it can be, or far away; and, where the delay is
/// shorter than the ring, the number that would be right if it were as long.
fn wrong_waiting(r: &mut Random, sheet: &Sheet, state: &State, far: i128) -> i128 {
    let (right, delay) = (state.waiting, i128::from(sheet.delay));
    let other = if right == delay { 0 } else { delay };
    let less = if right == 0 { delay } else { right - 1 };
    let mut wrong = vec![right + 1, less, other, far];
    let ring = RING as i128;
    if delay < ring {
        wrong.extend([ring, state.symbols.min(ring)]);
    }
    wrong.retain(|n| *n != right);
    r.pick(&wrong)
}
