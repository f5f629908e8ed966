//! Retunes: what is refused and in which order, what a commit changes, and how a run goes on under its new sheet.

mod common;
#[path = "common/lent.rs"]
mod lent;

use common::{RECORDING, recording};
use huntelm::archive::{self, BLOCK, STATE_SHEET, SYMBOL};
use huntelm::{Frontend, Params, Refusal, Symbol};
use lent::{State, fresh, lent};

/// Places of a state: integrator, period, gain accumulator, symbols so far, the newest pair's position and samples so far.
const V: usize = 2;
const PERIOD: usize = 3;
const GAIN_ACC: usize = 4;
const SYMBOLS: usize = 5;
const HEAD: usize = 6;
const SAMPLES: usize = 9;

/// What a place holds that no call has written.
const MARK: i64 = -77;

/// A change of parameters, and by what it is refused.
type Refused = (Refusal, fn(&mut Params));

/// Changes that are refused in a state under way, the last in the order of refusals first: each is the answer too where those before it are made as well.
const IN_ORDER: [Refused; 11] = [
    (Refusal::HeldTaps, |p| {
        let bank = vec![0; 64 * 18];
        (p.taps, p.h, p.g, p.k) = (18, bank.clone(), bank.clone(), bank);
    }),
    (Refusal::State, |p| p.integrator_max = 0),
    (Refusal::Delay, |p| p.delay = 23),
    (Refusal::AgcShift, |p| p.agc_shift = 64),
    (Refusal::Range, |p| p.bits = 9),
    (Refusal::PeriodBounds, |p| p.period_max = 1 << 26),
    (Refusal::DetectorTaps, |p| p.g[0] = 1),
    (Refusal::CoefficientSum, |p| p.k[..2].fill(65_536)),
    (Refusal::Coefficient, |p| p.k[2] = 131_072),
    (Refusal::BankLength, |p| p.h.push(0)),
    (Refusal::Taps, |p| p.taps = 19),
];

fn changed(p: &Params, change: impl FnOnce(&mut Params)) -> Params {
    let mut p = p.clone();
    change(&mut p);
    p
}

/// Takes all pairs, and says how the block was refused.
fn block(p: &Params, state: &mut State, pairs: &[[i16; 2]]) -> Result<Vec<i64>, u32> {
    let (mut out, mut answer) = (vec![MARK; SYMBOL * pairs.len()], [MARK; BLOCK]);
    let sheet = p.places();
    let values = pairs.as_flattened();
    match lent(p, &sheet).block(state.into(), values, &mut out, &mut answer) {
        0 => Ok(out[..SYMBOL * answer[0] as usize].to_vec()),
        number => Err(number),
    }
}

/// Asks, by the archive's own call. A refused one writes nothing.
fn ask(p: &Params, state: &State) -> Result<u64, u32> {
    let mut answer = [MARK; 2];
    let number = lent(p, &p.places()).ask(state.into(), &mut answer);
    assert_eq!(answer[1], MARK);
    match number {
        0 => Ok(answer[0] as u64),
        number => {
            assert_eq!(answer[0], MARK);
            Err(number)
        }
    }
}

/// Commits likewise. Accepted, it writes the held sheet and nothing else; refused, nothing.
fn commit(p: &Params, state: &mut State, ticket: u64) -> Result<(), u32> {
    let mut right = *state;
    let sheet = p.places();
    let number = lent(p, &sheet).commit(ticket, &mut state.places, &state.line, &state.errors);
    let answer = match number {
        0 => {
            right.places[STATE_SHEET..].copy_from_slice(&sheet);
            Ok(())
        }
        number => Err(number),
    };
    assert_eq!(*state, right);
    answer
}

/// The recording's sheet, the state after so many of its pairs, and the pairs that follow.
fn under_way(taken: usize) -> (Params, State, Vec<[i16; 2]>) {
    let (p, pairs) = recording(RECORDING);
    let mut state = fresh(&p);
    block(&p, &mut state, &pairs[..taken]).unwrap();
    (p, state, pairs[taken..].to_vec())
}

/// The recording's run, in blocks of so many pairs, with these parameters put in before the samples of these numbers.
fn run(retunes: &[(usize, Params)], size: usize) -> (Vec<Symbol>, Frontend) {
    let (p, pairs) = recording(RECORDING);
    let mut front = Frontend::new(p).unwrap();
    let mut symbols = Vec::new();
    let mut take = |front: &mut Frontend, end: usize| {
        for block in pairs[front.samples() as usize..end].chunks(size) {
            front.process(block, &mut symbols).unwrap();
        }
    };
    for (before, params) in retunes {
        take(&mut front, *before);
        let ticket = front.ask(params).unwrap();
        front.retune(ticket, params.clone()).unwrap();
        assert_eq!(front.params(), params);
    }
    take(&mut front, pairs.len());
    (symbols, front)
}

/// Parameters that differ from the recording's in what the two loops are set by, and the recording's own again.
fn some_retunes() -> Vec<(usize, Params)> {
    let (p, _) = recording(RECORDING);
    let slow = changed(&p, |p| (p.kp_shift, p.ki_shift) = (14, 10));
    let wide = changed(&slow, |p| {
        (p.period_nominal, p.integrator_max) = (23_300_000, 900_000);
        (p.period_min, p.period_max) = (20_000_000, 30_000_000);
        (p.agc_target, p.agc_shift, p.ted_shift) = (5000, 2, 7);
    });
    vec![
        (0, slow.clone()),
        (1, p.clone()),
        (600, slow),
        (601, wide),
        (1100, p),
    ]
}

#[test]
fn one_change_is_refused_by_its_number() {
    let (p, state, _) = under_way(700);
    let ticket = state.places[SYMBOLS] as u64;
    let more: [Refused; 4] = [
        (Refusal::Delay, |p| p.delay = 0),
        (Refusal::Delay, |p| p.delay = 25),
        (Refusal::Range, |p| p.integrator_max = -1),
        (Refusal::State, |p| {
            (p.period_min, p.period_max) = (p.period_nominal, p.period_nominal)
        }),
    ];
    for (refusal, change) in IN_ORDER.into_iter().chain(more) {
        let p = changed(&p, change);
        let answer = commit(&p, &mut state.clone(), ticket);
        assert_eq!(ask(&p, &state), Err(refusal.number()));
        assert_eq!(answer, Err(refusal.number()));
    }
    for ticket in [
        0,
        ticket - 1,
        ticket + 1,
        ticket + (1 << 32),
        1 << 63,
        u64::MAX,
    ] {
        let answer = commit(&p, &mut state.clone(), ticket);
        assert_eq!(answer, Err(Refusal::Ticket.number()));
    }
}

/// A wrong ticket is the last fault, and each change that is added comes before those that were made already.
#[test]
fn of_several_the_first_in_order() {
    let (mut p, mut state, pairs) = under_way(700);
    let (own, mut front) = (p.clone(), Frontend::new(p.clone()).unwrap());
    front
        .process(&recording(RECORDING).1[..700], &mut Vec::new())
        .unwrap();
    for ticket in [9, front.symbols() + (1 << 32)] {
        assert_eq!(front.retune(ticket, p.clone()), Err(Refusal::Ticket));
    }
    for (refusal, change) in IN_ORDER {
        change(&mut p);
        let number = refusal.number();
        assert_eq!(ask(&p, &state), Err(number));
        assert_eq!(commit(&p, &mut state, 9), Err(number));
        assert_eq!(
            (front.ask(&p), front.retune(9, p.clone())),
            (Err(refusal), Err(refusal))
        );
        assert_eq!(front.params(), &own);
    }
    // The front end goes on as if nobody had asked.
    let mut symbols = Vec::new();
    front.process(&pairs, &mut symbols).unwrap();
    let places: Vec<i64> = symbols.iter().flat_map(Symbol::places).collect();
    assert_eq!(block(&own, &mut state, &pairs), Ok(places));
}

/// Slices that are no state have no delay of their own: 9 comes before another delay's 29 there, and behind what is wrong with the sheet itself.
#[test]
fn slices_that_are_no_state() {
    let (p, good, _) = under_way(100);
    let mut broken = good;
    broken.places[STATE_SHEET] = -1;
    let whole = archive::State::from(&good);
    for state in [
        archive::State {
            places: &good.places[1..],
            ..whole
        },
        archive::State {
            line: &good.line[1..],
            ..whole
        },
        archive::State {
            errors: &good.errors[1..],
            ..whole
        },
        (&broken).into(),
    ] {
        for (delay, refusal) in [
            (24, Refusal::State),
            (23, Refusal::State),
            (25, Refusal::Delay),
        ] {
            let p = changed(&p, |p| p.delay = delay);
            let sheet = p.places();
            let mut places = state.places.to_vec();
            let asked = lent(&p, &sheet).ask(state, &mut []);
            let committed = lent(&p, &sheet).commit(0, &mut places, state.line, state.errors);
            assert_eq!([asked, committed], [refusal.number(); 2]);
            assert_eq!(places, state.places);
        }
    }
    let number = lent(&p, &p.places()).ask(whole, &mut []);
    assert_eq!(number, Refusal::ShortOutput.number());
}

/// Registers have to be within the new bounds, and at a bound they are.
#[test]
fn registers_at_the_new_bounds() {
    let (p, mut state, _) = under_way(700);
    state.places[V] = -(5 << 16);
    state.places[PERIOD] = 23_000_000;
    let bounds = |low: u32, high: u32, integrator_max: i32| Params {
        period_min: low,
        period_nominal: low,
        period_max: high,
        integrator_max,
        ..p.clone()
    };
    let ticket = Ok(state.places[SYMBOLS] as u64);
    let refused = Err(Refusal::State.number());
    assert_eq!(ask(&bounds(23_000_000, 23_000_000, 5), &state), ticket);
    assert_eq!(ask(&bounds(23_000_001, 23_000_001, 5), &state), refused);
    assert_eq!(ask(&bounds(22_999_999, 22_999_999, 5), &state), refused);
    assert_eq!(ask(&bounds(22_000_000, 24_000_000, 4), &state), refused);
    state.places[V] += 1 - (1 << 16);
    assert_eq!(ask(&bounds(22_000_000, 24_000_000, 5), &state), refused);
    state.places[V] = 5 << 16;
    assert_eq!(ask(&bounds(22_000_000, 24_000_000, 5), &state), ticket);
    state.places[GAIN_ACC] = 1 << 24;
    assert_eq!(ask(&bounds(22_000_000, 24_000_000, 5), &state), refused);
}

/// Fewer taps are 9 where the newest pair stands behind them, and 27 where it does not; more taps are 27.
#[test]
fn other_taps() {
    let (p, mut state, _) = under_way(100);
    let with_taps = |taps: u32| Params {
        taps,
        h: vec![0; 64 * taps as usize],
        g: vec![0; 64 * taps as usize],
        k: vec![0; 64 * taps as usize],
        ..p.clone()
    };
    for head in 0..16 {
        state.places[HEAD] = head;
        for taps in (4..=64).step_by(2).filter(|taps| *taps != p.taps) {
            let refusal = match head < taps.into() {
                true => Refusal::HeldTaps,
                false => Refusal::State,
            };
            assert_eq!(ask(&with_taps(taps), &state), Err(refusal.number()));
        }
    }
}

/// The sheet that a state holds is the one that it goes on under: of another one a single field is enough, also one that no symbol depends on.
#[test]
fn another_sheet_is_refused_by_blocks_and_readings() {
    let (p, state, pairs) = under_way(300);
    let others: [fn(&mut Params); 16] = [
        |p| p.nco_step += 1,
        |p| p.period_nominal += 1,
        |p| p.period_min -= 1,
        |p| p.period_max += 1,
        |p| p.ted_shift += 1,
        |p| p.kp += 1,
        |p| p.kp_shift += 1,
        |p| p.ki += 1,
        |p| p.ki_shift += 1,
        |p| p.integrator_max += 1,
        |p| p.agc_init += 1,
        |p| p.agc_target += 1,
        |p| p.agc_shift += 1,
        |p| p.bits += 1,
        |p| p.q_shift += 1,
        |p| p.block_log2 += 1,
    ];
    for change in others {
        let other = changed(&p, change);
        let (mut after, mut answer) = (state, [MARK; 3]);
        let number = Refusal::State.number();
        assert_eq!(block(&other, &mut after, &pairs[..10]), Err(number));
        assert_eq!(
            lent(&other, &other.places()).read((&after).into(), &mut answer),
            number
        );
        assert_eq!((after, answer), (state, [MARK; 3]));
        // Committed it is the one that is accepted, and the first is refused.
        let ticket = ask(&other, &after).unwrap();
        assert_eq!(commit(&other, &mut after, ticket), Ok(()));
        assert_eq!(block(&p, &mut after, &pairs[..10]), Err(number));
        assert!(block(&other, &mut after, &pairs[..10]).is_ok());
    }
}

/// No state holds banks, so nobody notices other ones: they are used.
#[test]
fn other_banks_are_not_noticed() {
    let (p, state, pairs) = under_way(300);
    let silent = changed(&p, |p| p.k.fill(0));
    let (mut own, mut other) = (state, state);
    let right = block(&p, &mut own, &pairs).unwrap();
    let symbols = block(&silent, &mut other, &pairs).unwrap();
    assert!(right.chunks(SYMBOL).any(|symbol| symbol[6] != 0));
    assert!(symbols.chunks(SYMBOL).all(|symbol| symbol[6..8] == [0, 0]));
}

/// Blocks that make no symbol may come between asking and committing, and other commits too.
#[test]
fn a_ticket_holds_until_the_next_symbol() {
    let (p, mut state, pairs) = under_way(300);
    let wanted = changed(&p, |p| p.kp /= 2);
    let (mut force, mut held) = (&p, 0);
    for pair in pairs {
        let ticket = ask(&wanted, &state).unwrap();
        assert_eq!(ticket, state.places[SYMBOLS] as u64);
        let made = block(force, &mut state, &[pair]).unwrap().len() / SYMBOL;
        let answer = commit(&wanted, &mut state, ticket);
        match made {
            0 => {
                held += 1;
                assert_eq!(answer, Ok(()));
                assert_eq!(commit(&p, &mut state, ticket), Ok(()));
                assert_eq!(commit(&wanted, &mut state, ticket), Ok(()));
                force = &wanted;
            }
            _ => assert_eq!(answer, Err(Refusal::Ticket.number())),
        }
    }
    assert!(held > 100, "{held}");
}

/// A ticket has 64 bits: behind more symbols than 32 bits count it comes back whole, and its low half is none.
#[test]
fn a_ticket_of_64_bits() {
    let (p, mut state, _) = under_way(300);
    let low = state.places[SYMBOLS] as u64;
    state.places[SYMBOLS] += 1 << 32;
    state.places[SAMPLES] += 1 << 33;
    assert_eq!(ask(&p, &state), Ok(low + (1 << 32)));
    assert_eq!(commit(&p, &mut state, low), Err(Refusal::Ticket.number()));
    assert_eq!(commit(&p, &mut state, low + (1 << 32)), Ok(()));
}

/// Every symbol has the period and the gain that docs/RULES.md, 3.6, gives it under the sheet in force at its sample.
#[test]
fn a_run_goes_on_under_its_new_sheet() {
    let retunes = some_retunes();
    let (symbols, _) = run(&retunes, 64);
    let (start, _) = recording(RECORDING);
    let delay = usize::from(start.delay);
    let rounded = |v: i64, shift: u8| (v + ((1 << shift) >> 1)) >> shift;
    let (mut v, mut period) = (0, i64::from(start.period_nominal));
    let mut gain_acc = i64::from(start.agc_init);
    for (n, symbol) in symbols.iter().enumerate() {
        let before = |(count, _): &&(usize, Params)| *count as u64 <= symbol.sample;
        let p = &retunes.iter().rfind(before).unwrap().1;
        if let Some(due) = n.checked_sub(delay) {
            let (e, err) = (i64::from(symbols[due].e), i64::from(symbols[due].err));
            let end = i64::from(p.integrator_max) << 16;
            v = (v + rounded(i64::from(p.ki) * e, p.ki_shift)).clamp(-end, end);
            period =
                i64::from(p.period_nominal) + (v >> 16) + rounded(i64::from(p.kp) * e, p.kp_shift);
            period = period.clamp(p.period_min.into(), p.period_max.into());
            gain_acc = (gain_acc + (err >> p.agc_shift)).clamp(0, (1 << 24) - 1);
        }
        let made_with = (i64::from(symbol.period), i64::from(symbol.gain));
        assert_eq!(made_with, (period, gain_acc / 256), "symbol {n}");
    }
    assert_eq!(symbols[0].period, start.period_nominal);
}

/// The new banks serve from the sample before which they were put in.
#[test]
fn a_run_goes_on_with_its_new_banks() {
    let (p, _) = recording(RECORDING);
    let silent = changed(&p, |p| {
        for bank in [&mut p.h, &mut p.g, &mut p.k] {
            bank.fill(0);
        }
    });
    let (symbols, front) = run(&[(700, silent.clone())], 64);
    let behind = symbols.partition_point(|s| s.sample < 700);
    assert!(symbols[..behind] == run(&[], 64).0[..behind]);
    assert!(
        symbols[behind..]
            .iter()
            .all(|s| [s.y, s.dy, s.yk] == [[0; 2]; 3])
    );
    assert!(symbols.len() - behind > 500);
    assert_eq!(front.params(), &silent);
}

/// The period stays where the new nominal one is another, until the next errors are applied. Before the first sample that takes as long as the delay, so that
/// the front end is not one that was started with the new parameters.
#[test]
fn the_period_stays() {
    let (p, pairs) = recording(RECORDING);
    let wanted = changed(&p, |p| {
        (p.period_nominal, p.agc_init) = (23_300_000, 300_000);
    });
    let (symbols, _) = run(&[(0, wanted.clone())], 64);
    let first = (p.period_nominal, (p.agc_init / 256) as u16);
    let (made_before, behind) = symbols.split_at(p.delay.into());
    assert!(made_before.iter().all(|s| (s.period, s.gain) == first));
    assert!(behind[0].period.abs_diff(wanted.period_nominal) < 1000);

    let mut front = Frontend::new(p).unwrap();
    front.process(&pairs[..700], &mut Vec::new()).unwrap();
    let before = (front.period(), front.gain(), front.time(), front.samples());
    front.retune(front.symbols(), wanted).unwrap();
    let after = (front.period(), front.gain(), front.time(), front.samples());
    assert_eq!(after, before);
    for pair in &pairs[700..] {
        match front.push(*pair).unwrap() {
            None => assert_eq!(front.period(), before.0),
            Some(symbol) => {
                assert_ne!(symbol.period, before.0);
                break;
            }
        }
    }
}

/// With the same retunes at the same samples, how the samples between them are cut changes nothing.
#[test]
fn blocks_of_every_size_with_retunes() {
    let (right, end) = run(&some_retunes(), 5000);
    assert_ne!(right, run(&[], 5000).0);
    for size in [1, 2, 3, 7, 64, 499, 1000] {
        let (symbols, front) = run(&some_retunes(), size);
        assert!(symbols == right, "blocks of {size}");
        assert_eq!((front.time(), front.period()), (end.time(), end.period()));
    }
}

/// Its own parameters put in again are no change.
#[test]
fn a_retune_to_the_same_parameters() {
    let (p, _) = recording(RECORDING);
    let again: Vec<_> = [0, 5, 5, 300, 1500]
        .map(|before| (before, p.clone()))
        .into();
    assert!(run(&again, 64).0 == run(&[], 64).0);
}

/// Only taps and delay of the held sheet are looked at, so a retune also mends a state whose held sheet nobody would accept.
#[test]
fn a_state_whose_held_sheet_is_none() {
    let (p, mut state, pairs) = under_way(300);
    let right = block(&p, &mut state.clone(), &pairs);
    let held = &mut state.places[STATE_SHEET..];
    held[2..5].fill(0);
    held[14] = 200;
    assert_eq!(block(&p, &mut state, &pairs), Err(Refusal::State.number()));
    let ticket = ask(&p, &state).unwrap();
    assert_eq!(commit(&p, &mut state, ticket), Ok(()));
    assert_eq!(block(&p, &mut state, &pairs), right);
}
