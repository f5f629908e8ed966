//! Clips: how many numbers of a block's symbols 16 bits were too few for.

mod common;
#[path = "common/lent.rs"]
mod lent;

use common::{RECORDING, recording};
use huntelm::archive::{BLOCK, BLOCK_CLIPS, BLOCK_COUNT, BLOCK_TAKEN, SYMBOL};
use huntelm::{Block, Frontend, Params, Refusal, Symbol};
use lent::{fresh, lent};

/// The place of a state that has the samples so far.
const SAMPLES: usize = 9;

/// What a place holds that no call has written.
const MARK: i64 = -77;

/// The sheet of the whole case (docs/RULES.md, 9), where the rows of h, g and k begin with these coefficients and have 0 behind them, and the gain is so many
/// 1024ths. Its symbols fall on every other sample and are made of that sample alone.
fn small(coefficients: [i32; 3], gain: u32) -> Params {
    let fields = [
        4, 0, 33554432, 32883343, 34225520, 8, 0, 0, 0, 0, 335544, 0, 16384, 4, 8, 6, 12, 24,
    ];
    let [h, g, k] = coefficients.map(|first| [first, 0, 0, 0].repeat(64));
    Params {
        agc_init: 256 * gain,
        ..Params::from_places(&fields, h, g, k).unwrap()
    }
}

/// The recording's sheet with a mixer that does not turn.
fn still() -> Params {
    Params {
        nco_step: 0,
        ..recording(RECORDING).0
    }
}

/// Sheets whose filters clip, and of which the second and the third have a gain that clips too: the gain loop aims high, or begins high and hardly moves.
fn sheets() -> [Params; 3] {
    [
        still(),
        Params {
            agc_target: 400_000,
            ..still()
        },
        Params {
            agc_init: (1 << 24) - 1,
            agc_shift: 20,
            ..still()
        },
    ]
}

/// Noise, a thousand pairs of full scale, a thousand of half of it, and so on to silence; long enough for several calls of the archive.
fn noise() -> Vec<[i16; 2]> {
    (0..17_000u32)
        .map(|n| (n.wrapping_mul(2_654_435_761), n / 1000))
        .map(|(x, shift)| [x as i16, (x >> 13) as i16].map(|v| v >> shift.min(15)))
        .collect()
}

/// Which of a symbol's twelve numbers were clipped, worked out of the samples (docs/RULES.md, 3.3, 3.7 and 3.8) for a mixer that does not turn: those of h, g
/// and k, I and Q each, and then these with the gain.
fn clipped(p: &Params, pairs: &[[i16; 2]], symbol: &Symbol) -> [bool; 12] {
    let taps = p.taps as usize;
    let mixed = |v: i16| (i64::from(v) * 32767 + (1 << 14)) >> 15;
    let line: Vec<_> = pairs[..=symbol.sample as usize]
        .iter()
        .rev()
        .map(|pair| pair.map(mixed))
        .take(taps)
        .collect();
    let mut clipped = [false; 12];
    let mut note = |place: usize, computed: i64, reported: i16| {
        assert_eq!(computed.clamp(-32768, 32767), reported.into());
        clipped[place] = computed != i64::from(reported);
    };
    let numbers = [
        (&p.h, symbol.y, symbol.z),
        (&p.g, symbol.dy, symbol.dz),
        (&p.k, symbol.yk, symbol.zk),
    ];
    for (n, (bank, filtered, scaled)) in numbers.into_iter().enumerate() {
        let row = &bank[taps * usize::from(symbol.phase)..][..taps];
        for part in 0..2 {
            let products = row.iter().zip(&line).map(|(c, v)| i64::from(*c) * v[part]);
            let sum: i64 = products.sum();
            note(2 * n + part, (sum + (1 << 13)) >> 14, filtered[part]);
            let product = i64::from(filtered[part]) * i64::from(symbol.gain);
            note(6 + 2 * n + part, (product + (1 << 9)) >> 10, scaled[part]);
        }
    }
    clipped
}

/// The clips of each symbol.
fn counts(p: &Params, pairs: &[[i16; 2]], symbols: &[Symbol]) -> Vec<u64> {
    let count = |symbol| clipped(p, pairs, symbol).into_iter().filter(|c| *c).count() as u64;
    symbols.iter().map(count).collect()
}

/// A component of 8192 goes through the mixer as it is, and the coefficient 65536 makes 32768 of it.
#[test]
fn counted_by_hand() {
    for (coefficients, gain, sample, clips) in [
        // 32767, and then 32767.5, which is rounded upward.
        ([65534; 3], 1024, [8192, 0], 0),
        ([65535; 3], 1024, [8192, 0], 3),
        // -32768, -32768.5, which is rounded to it, and -32769.
        ([65536; 3], 1024, [-8192, -8192], 0),
        ([65537; 3], 1024, [-8192, -8192], 0),
        ([65538; 3], 1024, [-8192, -8192], 6),
        // A filter and the gain, the gain alone, and a filter whose clipped number is not too large with the gain.
        ([131071, 0, 0], 3072, [8192, -8192], 4),
        ([0, 32768, 0], 3072, [8192, 0], 1),
        ([0, 0, 131071], 512, [0, 8192], 1),
        ([131071; 3], 3072, [-8192, 8192], 12),
        ([131071; 3], 65535, [0, 0], 0),
    ] {
        let mut front = Frontend::new(small(coefficients, gain)).unwrap();
        let pairs = [sample, [i16::MAX, i16::MIN], sample];
        let block = Block {
            symbols: 2,
            clips: 2 * clips,
            taken: 3,
        };
        let found = front.process(&pairs, &mut Vec::new());
        assert_eq!(found, Ok(block), "{coefficients:?}, {gain}, {sample:?}");
    }
}

/// The output of two bits, the timing error and the gain accumulator are clamped here. Only the twelve numbers count.
#[test]
fn other_clamps_count_nothing() {
    let p = Params {
        ted_shift: 0,
        bits: 2,
        q_shift: 0,
        agc_target: 0,
        agc_shift: 0,
        delay: 1,
        ..small([65536; 3], 1024)
    };
    let mut symbols = Vec::new();
    let mut front = Frontend::new(p).unwrap();
    let block = front.process(&[[8000, 8000]; 3], &mut symbols).unwrap();
    assert_eq!((block.symbols, block.clips), (2, 0));
    assert_eq!((symbols[0].q, symbols[0].e), ([1, 1], 8388607));
    assert_eq!((symbols[0].err, symbols[1].gain), (-500_000, 0));
}

#[test]
fn they_are_those_that_the_samples_give() {
    let pairs = noise();
    let mut seen = [0; 12];
    for p in sheets() {
        let mut symbols = Vec::new();
        let mut front = Frontend::new(p.clone()).unwrap();
        let block = front.process(&pairs, &mut symbols).unwrap();
        let counts = counts(&p, &pairs, &symbols);
        assert_eq!(block.clips, counts.iter().sum());
        assert_eq!((block.symbols, block.taken), (symbols.len(), pairs.len()));
        for symbol in &symbols {
            for (place, clip) in clipped(&p, &pairs, symbol).into_iter().enumerate() {
                seen[place] += u64::from(clip);
            }
        }
        // The end is all but silent, and nothing is clipped there, whatever the gain.
        assert!(counts[counts.len() - 500..].iter().all(|c| *c == 0));
    }
    assert!(seen.iter().all(|clips| *clips > 300), "{seen:?}");
}

#[test]
fn blocks_of_every_size_have_as_many() {
    let pairs = noise();
    for p in sheets() {
        let mut whole = Vec::new();
        let all = Frontend::new(p.clone())
            .unwrap()
            .process(&pairs, &mut whole)
            .unwrap();
        let counts = counts(&p, &pairs, &whole);
        for size in [1, 2, 3, 64, 999, 4096, 5000] {
            let (mut symbols, mut clips) = (Vec::new(), 0);
            let mut front = Frontend::new(p.clone()).unwrap();
            for pairs in pairs.chunks(size) {
                let before = symbols.len();
                let block = front.process(pairs, &mut symbols).unwrap();
                let own = &counts[before..symbols.len()];
                assert_eq!((block.symbols, block.taken), (own.len(), pairs.len()));
                assert_eq!(block.clips, own.iter().sum(), "blocks of {size}");
                assert!(block.clips <= 12 * block.symbols as u64);
                clips += block.clips;
            }
            assert_eq!((clips, &symbols), (all.clips, &whole), "blocks of {size}");
        }
    }
}

/// Places for one symbol or two: the clips are those of the pairs that were taken.
#[test]
fn short_outputs_have_as_many() {
    let [p, ..] = sheets();
    let pairs = &noise()[..3000];
    let clips = Frontend::new(p.clone())
        .unwrap()
        .process(pairs, &mut Vec::new())
        .unwrap()
        .clips;
    let places = p.places();
    for room in [20, 39, 40, 77, 20 * 3000] {
        let (mut state, mut left, mut sum) = (fresh(&p), pairs.as_flattened(), 0);
        while !left.is_empty() {
            let (mut out, mut answer) = (vec![0; room], [MARK; BLOCK + 1]);
            assert_eq!(
                lent(&p, &places).block((&mut state).into(), left, &mut out, &mut answer),
                0
            );
            assert!(answer[BLOCK_CLIPS] <= 12 * answer[BLOCK_COUNT]);
            assert_eq!(answer[BLOCK_CLIPS + 1..], [MARK; 2]);
            sum += answer[BLOCK_CLIPS] as u64;
            left = &left[2 * answer[BLOCK_TAKEN] as usize..];
        }
        assert_eq!(sum, clips, "{room} places");
    }
}

/// A number that was clipped stands at an end of 16 bits, so there are no more clips than such numbers. The recording, of 12 bits, has none of either.
#[test]
fn what_was_clipped_stands_at_an_end() {
    let (p, pairs) = recording(RECORDING);
    let at_an_end = |symbol: &Symbol| {
        let places = symbol.places();
        let numbers = places[2..8].iter().chain(&places[10..16]);
        numbers.filter(|n| matches!(n, 32767 | -32768)).count() as u64
    };
    for times in [1, 8, 15] {
        let pairs: Vec<_> = pairs.iter().map(|pair| pair.map(|v| times * v)).collect();
        let mut symbols = Vec::new();
        let mut front = Frontend::new(p.clone()).unwrap();
        let block = front.process(&pairs, &mut symbols).unwrap();
        let ends: u64 = symbols.iter().map(at_an_end).sum();
        match times {
            1 => assert_eq!((block.clips, ends), (0, 0)),
            _ => assert!(
                1000 < block.clips && block.clips <= ends,
                "{block:?}, {ends}"
            ),
        }
    }
}

/// Where every number is clipped there are twelve a symbol, and none on the samples between.
#[test]
fn twelve_a_symbol() {
    let p = Params {
        agc_shift: 63,
        ..small([131071, -131071, 131071], 65535)
    };
    let mut front = Frontend::new(p).unwrap();
    let block = front.process(&[[i16::MIN, i16::MAX]; 9001], &mut Vec::new());
    let twelve = Block {
        symbols: 4501,
        clips: 12 * 4501,
        taken: 9001,
    };
    assert_eq!(block, Ok(twelve));
    let nothing = front.process(&[], &mut Vec::new());
    assert_eq!(nothing, Ok(Block::default()));
}

/// However loud the samples, a call that is refused says nothing of clips.
#[test]
fn a_refused_call_answers_none() {
    let p = small([131071; 3], 3072);
    let refused = Params {
        delay: 0,
        ..p.clone()
    };
    let good = fresh(&p);
    let (mut full, mut broken) = (good, good);
    full.places[SAMPLES] = i64::MAX;
    broken.places[SAMPLES] = -1;
    for (p, state, length, places, room, refusal) in [
        (&refused, good, 8, 80, BLOCK, Refusal::Delay),
        (&p, broken, 8, 80, BLOCK, Refusal::State),
        (&p, good, 7, 80, BLOCK, Refusal::OddInput),
        (&p, good, 8, SYMBOL - 1, BLOCK, Refusal::ShortOutput),
        (&p, full, 8, 80, BLOCK, Refusal::TooManySamples),
        (&p, good, 8, 80, BLOCK - 1, Refusal::ShortOutput),
    ] {
        let (mut after, mut out, mut answer) = (state, vec![MARK; places], vec![MARK; room]);
        let sheet = p.places();
        let number = lent(p, &sheet).block(
            (&mut after).into(),
            &[32767; 8][..length],
            &mut out,
            &mut answer,
        );
        assert_eq!(number, refusal.number());
        assert_eq!(answer, vec![MARK; room], "{refusal}");
        assert_eq!((after, out), (state, vec![MARK; places]), "{refusal}");
    }
}
