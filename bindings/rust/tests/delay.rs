//! The loop's delay: where it is refused, when a symbol's errors act, and that a state goes on under its own delay alone.

mod common;
#[path = "common/lent.rs"]
mod lent;

use common::{RECORDING, recording};
use huntelm::archive::{self, BLOCK, BLOCK_COUNT, BLOCK_TAKEN, SYMBOL, Sheet, StateMut};
use huntelm::{Frontend, Params, Refusal, Symbol};
use lent::{State, fresh, lent};
use std::collections::HashSet;

/// Places of a state: time, gain accumulator, symbols so far, the oldest errors' position, and how many wait.
const T: usize = 1;
const GAIN_ACC: usize = 4;
const SYMBOLS: usize = 5;
const OLDEST: usize = 7;
const WAITING: usize = 8;

/// The delay's place in a sheet.
const DELAY: usize = 17;

/// Pairs of errors for which the ring has room, at every delay.
const RING: usize = 24;

/// The recording's sheet with another delay, and its pairs.
fn with_delay(delay: u8) -> (Params, Vec<[i16; 2]>) {
    let (params, pairs) = recording(RECORDING);
    (Params { delay, ..params }, pairs)
}

/// Takes one pair, and gives the symbol's places where one falls on it.
fn step(p: &Params, state: &mut State, pair: [i16; 2]) -> Option<[i64; SYMBOL]> {
    let mut symbol = [0; SYMBOL];
    let mut answer = [0; BLOCK];
    let number = lent(p, &p.places()).block(state.into(), &pair, &mut symbol, &mut answer);
    let count = answer[BLOCK_COUNT];
    assert!(count == 0 || count == 1, "{count}");
    assert_eq!((number, answer[BLOCK_TAKEN]), (0, 1));
    (count == 1).then_some(symbol)
}

/// The same slices, lent once more.
fn again<'a>(state: &'a mut StateMut) -> StateMut<'a> {
    StateMut {
        places: state.places,
        line: state.line,
        errors: state.errors,
    }
}

fn symbols(p: &Params, pairs: &[[i16; 2]]) -> Vec<Symbol> {
    let mut symbols = Vec::new();
    let mut front = Frontend::new(p.clone()).unwrap();
    front.process(pairs, &mut symbols).unwrap();
    symbols
}

/// Every call answers this refusal for the sheet, whatever else it is lent, and writes nothing.
fn refused_by_all(
    sheet: Sheet,
    refusal: Refusal,
    state: archive::State,
    values: &[i16],
    room: usize,
) {
    let number = refusal.number();
    let (mut places, mut line, mut errors) = (
        state.places.to_vec(),
        state.line.to_vec(),
        state.errors.to_vec(),
    );
    let mut out = vec![-7; room];
    assert_eq!(sheet.judge(), number);
    assert_eq!(sheet.read(state, &mut out), number);
    assert_eq!(sheet.ask(state, &mut out), number);
    for ticket in [0, 1] {
        assert_eq!(sheet.commit(ticket, &mut places, &line, &errors), number);
    }
    for period in [0, sheet.places[2] as u32] {
        assert_eq!(sheet.offset(period, &mut out), number);
    }
    let mut lent = StateMut {
        places: &mut places,
        line: &mut line,
        errors: &mut errors,
    };
    assert_eq!(sheet.start(again(&mut lent)), number);
    for places_of_answer in [0, BLOCK] {
        let mut answer = vec![-7; places_of_answer];
        let answered = sheet.block(again(&mut lent), values, &mut out, &mut answer);
        assert_eq!((answered, answer), (number, vec![-7; places_of_answer]));
    }
    assert_eq!(
        (&places[..], &line[..], &errors[..]),
        (state.places, state.line, state.errors)
    );
    assert_eq!(out, vec![-7; room]);
}

#[test]
fn a_refused_delay_comes_behind_8_and_before_what_is_not_of_the_sheet() {
    let good = fresh(&with_delay(24).0);
    let mut broken = good;
    broken.places[T] = -1;
    let short = archive::State {
        places: &good.places[1..],
        ..(&good).into()
    };
    for (agc_shift, refusal) in [(4, Refusal::Delay), (64, Refusal::AgcShift)] {
        for delay in [0, 25, 255] {
            let (p, _) = with_delay(delay);
            let p = Params { agc_shift, ..p };
            let places = p.places();
            let sheet = lent(&p, &places);
            refused_by_all(sheet, refusal, (&good).into(), &[9; 4], 40);
            refused_by_all(sheet, refusal, (&broken).into(), &[9; 3], 0);
            refused_by_all(sheet, refusal, short, &[9; 3], 0);
        }
    }
}

#[test]
fn errors_act_so_many_symbols_later() {
    for delay in 1..=24 {
        let (p, pairs) = with_delay(delay);
        let symbols = symbols(&p, &pairs);
        let rounded = |v: i64, shift: u8| (v + ((1 << shift) >> 1)) >> shift;
        let nominal = i64::from(p.period_nominal);
        let end = i64::from(p.integrator_max) << 16;
        let (mut v, mut period, mut gain_acc) = (0, nominal, i64::from(p.agc_init));
        for (n, symbol) in symbols.iter().enumerate() {
            if let Some(due) = n.checked_sub(delay.into()) {
                let (e, err) = (i64::from(symbols[due].e), i64::from(symbols[due].err));
                v = (v + rounded(i64::from(p.ki) * e, p.ki_shift)).clamp(-end, end);
                period = nominal + (v >> 16) + rounded(i64::from(p.kp) * e, p.kp_shift);
                period = period.clamp(p.period_min.into(), p.period_max.into());
                gain_acc = (gain_acc + (err >> p.agc_shift)).clamp(0, (1 << 24) - 1);
            }
            let made_with = (i64::from(symbol.period), i64::from(symbol.gain));
            assert_eq!(
                made_with,
                (period, gain_acc / 256),
                "delay {delay}, symbol {n}"
            );
        }
        let mut front = Frontend::new(p).unwrap();
        let single = pairs.iter().filter_map(|pair| front.push(*pair).unwrap());
        assert_eq!(single.collect::<Vec<_>>(), symbols, "delay {delay}");
    }
}

#[test]
fn every_delay_has_its_own_periods() {
    let mut seen = HashSet::new();
    for delay in 1..=24 {
        let (p, pairs) = with_delay(delay);
        let periods: Vec<u32> = symbols(&p, &pairs).iter().map(|s| s.period).collect();
        assert!(seen.insert(periods), "{delay}");
    }
}

/// The errors of symbol j stand at position j modulo 24 until those of symbol j + 24 take it, also when they wait no longer.
#[test]
fn a_run_goes_round_the_whole_ring() {
    for delay in 1..=24 {
        let (p, pairs) = with_delay(delay);
        let delay = usize::from(delay);
        let mut state = fresh(&p);
        let mut ring = [0; 2 * RING];
        let mut made = 0;
        for pair in &pairs[..150] {
            if let Some(symbol) = step(&p, &mut state, *pair) {
                ring[2 * (made % RING)..][..2].copy_from_slice(&symbol[18..]);
                made += 1;
            }
            let counts = [SYMBOLS, OLDEST, WAITING].map(|place| state.places[place] as usize);
            let oldest = made.saturating_sub(delay) % RING;
            assert_eq!(counts, [made, oldest, made.min(delay)]);
            assert_eq!(
                state.errors.map(i64::from),
                ring,
                "delay {delay}, {made} symbols"
            );
        }
        assert!(made > 4 * RING);
    }
}

/// A state need not be a run's: from wherever the oldest errors stand, the ring goes on from 23 to 0, and the places that are not written stay.
#[test]
fn the_oldest_may_stand_anywhere_in_the_ring() {
    for delay in 1..=24 {
        let (p, pairs) = with_delay(delay);
        let delay = usize::from(delay);
        let mut state = fresh(&p);
        for pair in &pairs[..60] {
            step(&p, &mut state, *pair);
        }
        // The next sample has a symbol, and by how much its gain accumulator rises says which errors were taken.
        state.places[T] = 0;
        for place in 0..RING {
            let errors = [0, (place as i32 + 1) << p.agc_shift];
            state.errors[2 * place..][..2].copy_from_slice(&errors);
        }
        for oldest in 0..RING {
            state.places[OLDEST] = oldest as i64;
            let mut after = state;
            let symbol = step(&p, &mut after, [300, -200]).unwrap();
            let rise = after.places[GAIN_ACC] - state.places[GAIN_ACC];
            assert_eq!(rise, oldest as i64 + 1);
            let mut ring = state.errors.map(i64::from);
            ring[2 * ((oldest + delay) % RING)..][..2].copy_from_slice(&symbol[18..]);
            assert_eq!(
                after.errors.map(i64::from),
                ring,
                "delay {delay}, from {oldest}"
            );
            let counts = [OLDEST, WAITING].map(|place| after.places[place] as usize);
            assert_eq!(counts, [(oldest + 1) % RING, delay]);
        }
        state.places[OLDEST] = RING as i64;
        let number = lent(&p, &p.places()).read((&state).into(), &mut [0; 3]);
        assert_eq!(number, Refusal::State.number());
    }
}

/// A block or a reading under another delay is 9, also while as many errors wait as that delay would have too; a retune to it is 29.
#[test]
fn a_state_under_another_delay() {
    for delay in 1..=24 {
        let (p, pairs) = with_delay(delay);
        let mut state = fresh(&p);
        for pair in &pairs[..60] {
            step(&p, &mut state, *pair);
            for other in (1..=24).filter(|other| *other != delay) {
                let mut places = p.places();
                places[DELAY] = other.into();
                refused_elsewhere(lent(&p, &places), &state);
            }
            assert_eq!(lent(&p, &p.places()).read((&state).into(), &mut [0; 3]), 0);
        }
        assert!(state.places[SYMBOLS] > 24);
    }
}

fn refused_elsewhere(sheet: Sheet, state: &State) {
    let [of_state, of_delay] = [Refusal::State, Refusal::Delay].map(Refusal::number);
    let mut after = *state;
    assert_eq!(sheet.read(state.into(), &mut [0; 3]), of_state);
    let block = sheet.block((&mut after).into(), &[], &mut [], &mut [0; BLOCK]);
    assert_eq!(block, of_state);
    assert_eq!(sheet.ask(state.into(), &mut [0]), of_delay);
    let State {
        places,
        line,
        errors,
    } = &mut after;
    let ticket = state.places[SYMBOLS] as u64;
    assert_eq!(sheet.commit(ticket, places, line, errors), of_delay);
    assert_eq!(after, *state);
}
