//! How many pairs a block takes, and what becomes of those that it does not take: `Sheet::block` with places for fewer symbols than there are pairs.

mod common;
#[path = "common/lent.rs"]
mod lent;

use common::{RECORDING, recording};
use huntelm::archive::{BLOCK, BLOCK_COUNT, BLOCK_TAKEN, SYMBOL};
use huntelm::{Params, Refusal};
use lent::{State, fresh, lent};

/// The place of a state that has the samples so far.
const SAMPLES: usize = 9;

/// What a place holds that no call has written. No answer has it.
const MARK: i64 = -77;

const NONE: u32 = 0;
const ODD: u32 = Refusal::OddInput as u32;
const SHORT: u32 = Refusal::ShortOutput as u32;
const TOO_MANY: u32 = Refusal::TooManySamples as u32;

/// A call's answer, and all that it was lent for writing as it is afterwards.
#[derive(Debug, Clone, PartialEq)]
struct After {
    number: u32,
    state: State,
    out: Vec<i64>,
    answer: Vec<i64>,
}

impl After {
    /// What a call leaves that is refused so on this state.
    fn refused(number: u32, state: &State, places: usize, room: usize) -> Self {
        Self {
            number,
            state: *state,
            out: vec![MARK; places],
            answer: vec![MARK; room],
        }
    }

    fn taken(&self) -> usize {
        self.answer[BLOCK_TAKEN] as usize
    }

    fn symbols(&self) -> &[i64] {
        &self.out[..SYMBOL * self.answer[BLOCK_COUNT] as usize]
    }
}

/// A block on this state, with so many places for symbols and so many for the answer.
fn block(p: &Params, state: &State, values: &[i16], places: usize, room: usize) -> After {
    let mut after = After::refused(NONE, state, places, room);
    after.number = lent(p, &p.places()).block(
        (&mut after.state).into(),
        values,
        &mut after.out,
        &mut after.answer,
    );
    after
}

/// Offers the values, and then what is left of them, until nothing is: the symbols, and the end state.
fn run(p: &Params, values: &[i16], places: usize) -> (Vec<i64>, State) {
    let (mut state, mut left, mut symbols) = (fresh(p), values, Vec::new());
    while !left.is_empty() {
        let after = block(p, &state, left, places, BLOCK);
        assert_eq!(after.number, NONE);
        assert_eq!(after.taken(), (left.len() / 2).min(places / SYMBOL));
        symbols.extend(after.symbols());
        left = &left[2 * after.taken()..];
        state = after.state;
    }
    (symbols, state)
}

/// The sheet, and the values of the pairs.
fn sheet_and_values() -> (Params, Vec<i16>) {
    let (p, pairs) = recording(RECORDING);
    (p, pairs.as_flattened().to_vec())
}

/// A state of a run that is under way, and the values that follow.
fn under_way(p: &Params, values: &[i16]) -> (State, Vec<i16>) {
    let (head, tail) = values.split_at(2 * 50);
    (run(p, head, 20 * 50).1, tail.to_vec())
}

/// Near the end of what can be counted: so many samples are left.
fn late(p: &Params, left: i64) -> State {
    let mut state = fresh(p);
    state.places[SAMPLES] = i64::MAX - left;
    state
}

#[test]
fn what_is_left_offered_again_makes_the_same_run() {
    let (p, values) = sheet_and_values();
    let enough = SYMBOL * values.len() / 2;
    let whole = run(&p, &values, enough);
    let (symbols, state) = &whole;
    assert_eq!(block(&p, &fresh(&p), &values, enough, BLOCK).taken(), 1500);
    assert_eq!(
        (symbols.len() / SYMBOL, state.places[SAMPLES]),
        (1083, 1500)
    );
    let long = [100, 399, 400, 401, 1999, 20_000, enough - 1, enough + 19];
    for places in (20..=45).chain(long) {
        assert!(run(&p, &values, places) == whole, "{places} places");
    }
}

/// Places that grow and shrink from call to call.
#[test]
fn places_may_change_between_calls() {
    let (p, values) = sheet_and_values();
    let whole = run(&p, &values, SYMBOL * values.len() / 2);
    let (mut state, mut left, mut symbols) = (fresh(&p), &values[..], Vec::new());
    for places in (20..=150).rev().step_by(7).cycle() {
        let after = block(&p, &state, left, places, BLOCK);
        assert_eq!(after.number, NONE);
        symbols.extend(after.symbols());
        left = &left[2 * after.taken()..];
        state = after.state;
        if left.is_empty() {
            break;
        }
    }
    assert!((symbols, state) == whole);
}

/// State, symbols and count are those of a block of the pairs that were taken, and every place behind the symbols is as it was.
#[test]
fn a_short_block_is_the_block_of_its_first_pairs() {
    let (p, values) = sheet_and_values();
    let (state, values) = under_way(&p, &values);
    for pairs in 0..=7 {
        for places in 0..=8 * SYMBOL {
            let after = block(&p, &state, &values[..2 * pairs], places, BLOCK);
            if pairs > 0 && places < SYMBOL {
                assert_eq!(after, After::refused(SHORT, &state, places, BLOCK));
                continue;
            }
            let taken = pairs.min(places / SYMBOL);
            let mut first = block(&p, &state, &values[..2 * taken], SYMBOL * taken, BLOCK);
            assert_eq!((first.number, first.taken()), (NONE, taken));
            first.out.resize(places, MARK);
            assert_eq!(after, first, "{pairs} pairs, {places} places");
            let behind = &after.out[after.symbols().len()..];
            assert!(behind.iter().all(|n| *n == MARK));
            assert_eq!(
                after.state.places[SAMPLES],
                state.places[SAMPLES] + taken as i64
            );
        }
    }
}

/// There are fewer symbols than pairs, so of five places for symbols some stay free, and all the same five pairs are taken.
#[test]
fn it_does_not_go_on_until_the_places_are_full() {
    let (p, values) = sheet_and_values();
    let mut state = fresh(&p);
    let mut seen = [0; 6];
    for left in (0..200).map(|call| &values[2 * 5 * call..]) {
        let after = block(&p, &state, left, 5 * SYMBOL, BLOCK);
        assert_eq!((after.number, after.taken()), (NONE, 5));
        seen[after.answer[BLOCK_COUNT] as usize] += 1;
        state = after.state;
    }
    assert_eq!(seen.iter().sum::<usize>(), 200);
    assert!(seen[3] > 50 && seen[4] > 50, "{seen:?}");
}

#[test]
fn the_pairs_behind_are_not_looked_at() {
    let (p, values) = sheet_and_values();
    let (state, mut values) = under_way(&p, &values);
    values.truncate(2 * 9);
    let after = block(&p, &state, &values, 3 * SYMBOL + 7, BLOCK);
    for (n, value) in values.iter_mut().enumerate().skip(2 * 3) {
        *value = [i16::MIN, i16::MAX, 0][n % 3];
    }
    assert_eq!(block(&p, &state, &values, 3 * SYMBOL + 7, BLOCK), after);
    assert_eq!((after.number, after.taken()), (NONE, 3));
}

#[test]
fn a_block_that_is_offered_nothing() {
    let (p, values) = sheet_and_values();
    let (state, _) = under_way(&p, &values);
    for places in [0, 1, 19, 20, 41] {
        let mut nothing = After::refused(NONE, &state, places, BLOCK);
        nothing.answer = vec![0, 0, 0, MARK];
        assert_eq!(block(&p, &state, &[], places, BLOCK), nothing);
    }
}

#[test]
fn the_answer_has_four_places_or_more() {
    let (p, values) = sheet_and_values();
    let (state, values) = under_way(&p, &values);
    for (pairs, places) in [(0, 0), (1, 20), (3, 60), (3, 20), (9, 65)] {
        let values = &values[..2 * pairs];
        for room in 0..BLOCK {
            let refused = After::refused(SHORT, &state, places, room);
            assert_eq!(block(&p, &state, values, places, room), refused);
        }
        let right = block(&p, &state, values, places, BLOCK);
        assert_eq!((right.number, &right.answer[3..]), (NONE, &[MARK][..]));
        for room in BLOCK..BLOCK + 5 {
            let mut more = right.clone();
            more.answer.resize(room, MARK);
            assert_eq!(block(&p, &state, values, places, room), more);
        }
    }
}

/// 10 is of all values, also of those that would not be taken, and comes before 11.
#[test]
fn odd_values() {
    let (p, values) = sheet_and_values();
    let (state, values) = under_way(&p, &values);
    for length in [1, 3, 5, 61] {
        for places in (0..=45).chain([600, 620]) {
            for room in [0, BLOCK] {
                let refused = After::refused(ODD, &state, places, room);
                assert_eq!(block(&p, &state, &values[..length], places, room), refused);
            }
        }
    }
}

/// 12 counts the pairs that would be taken.
#[test]
fn too_many_samples() {
    let (p, values) = sheet_and_values();
    for left in 0..4 {
        let state = late(&p, left as i64);
        for pairs in 0..6 {
            for places in [0, 20, 39, 40, 60, 80, 100, 120] {
                if pairs > 0 && places < SYMBOL {
                    continue;
                }
                let taken = pairs.min(places / SYMBOL);
                let after = block(&p, &state, &values[..2 * pairs], places, BLOCK);
                if taken > left {
                    assert_eq!(after, After::refused(TOO_MANY, &state, places, BLOCK));
                } else {
                    assert_eq!((after.number, after.taken()), (NONE, taken));
                    assert_eq!(
                        after.state.places[SAMPLES],
                        state.places[SAMPLES] + taken as i64
                    );
                }
            }
        }
    }
}

/// 10, then 11 for no room for a symbol, then 12, and then 11 for a short answer.
#[test]
fn the_order_of_10_11_and_12() {
    let (p, values) = sheet_and_values();
    let [full, last] = [late(&p, 0), late(&p, 1)];
    for room in 0..=BLOCK {
        let number = |state, length, places| {
            let after = block(&p, state, &values[..length], places, room);
            if after.number != NONE {
                assert_eq!(after, After::refused(after.number, state, places, room));
            }
            after.number
        };
        let answer = if room < BLOCK { SHORT } else { NONE };
        assert_eq!(number(&full, 3, 19), ODD);
        assert_eq!(number(&full, 2, 19), SHORT);
        assert_eq!(number(&full, 2, 20), TOO_MANY);
        assert_eq!(number(&last, 4, 40), TOO_MANY);
        assert_eq!(number(&last, 4, 39), answer);
        assert_eq!(number(&full, 0, 0), answer);
    }
}

/// What is wrong with sheet or state is answered whatever places there are.
#[test]
fn sheet_and_state_come_first() {
    let (p, values) = sheet_and_values();
    let state = fresh(&p);
    let mut broken = state;
    broken.places[SAMPLES] = -1;
    let refused = Params {
        delay: 0,
        ..p.clone()
    };
    for (length, places) in [(0, 0), (3, 0), (4, 0), (4, 20), (4, 40)] {
        for room in 0..=BLOCK {
            let values = &values[..length];
            let of_state = After::refused(Refusal::State.number(), &broken, places, room);
            assert_eq!(block(&p, &broken, values, places, room), of_state);
            let of_sheet = After::refused(Refusal::Delay.number(), &broken, places, room);
            assert_eq!(block(&refused, &broken, values, places, room), of_sheet);
        }
    }
}
