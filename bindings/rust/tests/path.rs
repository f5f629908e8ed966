//! Runs from a fresh start: the symbols, and what the front end says of itself.

mod common;

use common::{RECORDING, recording};
use huntelm::{Block, Frontend, Symbol};

const WHOLE: &str = include_str!("../../../crates/symbols/stdin");
const WHOLE_LIST: &str = include_str!("../../../crates/symbols/stdout");

/// The recording's list, from isdb-rs.
const SYMBOLS: &str = include_str!("../../../examples/symbols.txt");

/// The list of the symbols and of where the front end is after them.
fn list(symbols: &[Symbol], front: &Frontend) -> String {
    let mut text = String::new();
    for symbol in symbols {
        text += &symbol.places().map(|place| place.to_string()).join(",");
        text += "\n";
    }
    let (samples, count, t) = (front.samples(), front.symbols(), front.time());
    text + &format!("end,{samples},{count},{t}\n")
}

#[test]
fn the_whole_case() {
    let (params, pairs) = recording(WHOLE);
    let mut front = Frontend::new(params.clone()).unwrap();
    assert_eq!(front.params(), &params);
    assert_eq!((front.samples(), front.symbols(), front.time()), (0, 0, 0));
    assert_eq!((front.period(), front.gain()), (33554432, 1024));
    let mut symbols = Vec::new();
    let block = Block {
        symbols: 2,
        clips: 0,
        taken: 3,
    };
    assert_eq!(front.process(&pairs, &mut symbols), Ok(block));
    assert_eq!(list(&symbols, &front), WHOLE_LIST);
    let second = Symbol {
        sample: 2,
        phase: 0,
        y: [-1000, 1000],
        dy: [0, 0],
        yk: [-1000, 1000],
        gain: 1024,
        period: 33554432,
        z: [-1000, 1000],
        dz: [0, 0],
        zk: [-1000, 1000],
        q: [-16, 16],
        e: 0,
        err: 15896,
    };
    assert_eq!(symbols[1], second);
}

#[test]
fn one_sample_after_another() {
    let (params, pairs) = recording(RECORDING);
    let mut front = Frontend::new(params).unwrap();
    let mut symbols = Vec::new();
    for (n, pair) in pairs.iter().enumerate() {
        let falls = front.time() < 1 << 24;
        let found = front.push(*pair).unwrap();
        assert_eq!(found.is_some(), falls);
        symbols.extend(found);
        let last = symbols.last().unwrap();
        assert_eq!((front.period(), front.gain()), (last.period, last.gain));
        assert_eq!(front.samples(), n as u64 + 1);
        assert_eq!(front.symbols(), symbols.len() as u64);
    }
    assert_eq!(list(&symbols, &front), SYMBOLS);
}

#[test]
fn blocks_of_every_size_up_to_the_whole() {
    let (params, pairs) = recording(RECORDING);
    for size in (1..=100).chain([1000, 1499, 1500, 5000]) {
        let mut front = Frontend::new(params.clone()).unwrap();
        let mut symbols = Vec::new();
        for pairs in pairs.chunks(size) {
            let before = symbols.len();
            let block = front.process(pairs, &mut symbols).unwrap();
            let made = symbols.len() - before;
            assert_eq!((block.symbols, block.taken), (made, pairs.len()));
        }
        assert_eq!(list(&symbols, &front), SYMBOLS, "blocks of {size}");
    }
}

#[test]
fn blocks_and_single_samples_in_turn() {
    let (params, pairs) = recording(RECORDING);
    let mut front = Frontend::new(params).unwrap();
    let mut symbols = Vec::new();
    for block in pairs.chunks(37) {
        let (first, rest) = block.split_first().unwrap();
        symbols.extend(front.push(*first).unwrap());
        assert_eq!(front.process(&[], &mut symbols), Ok(Block::default()));
        front.process(rest, &mut symbols).unwrap();
    }
    assert_eq!(list(&symbols, &front), SYMBOLS);
}

/// Longer than what goes to the archive at once, and with the extremes of a sample.
#[test]
fn a_long_block() {
    let (params, _) = recording(RECORDING);
    let pairs: Vec<[i16; 2]> = (0..20_000u32)
        .map(|n| n.wrapping_mul(2_654_435_761))
        .map(|n| match n >> 29 {
            0 => [i16::MIN, i16::MAX],
            1 => [i16::MIN; 2],
            _ => [n as i16, (n >> 13) as i16],
        })
        .collect();
    let mut whole = Frontend::new(params.clone()).unwrap();
    let mut parts = Frontend::new(params).unwrap();
    let (mut of_whole, mut of_parts) = (Vec::new(), Vec::new());
    whole.process(&pairs, &mut of_whole).unwrap();
    for block in pairs.chunks(77) {
        parts.process(block, &mut of_parts).unwrap();
    }
    assert_eq!(list(&of_whole, &whole), list(&of_parts, &parts));
}

#[test]
fn a_copy_goes_on_alike() {
    let (params, pairs) = recording(RECORDING);
    let (head, tail) = pairs.split_at(700);
    let mut front = Frontend::new(params).unwrap();
    let mut symbols = Vec::new();
    front.process(head, &mut symbols).unwrap();
    let mut copy = front.clone();
    let mut of_copy = symbols.clone();
    front.process(tail, &mut symbols).unwrap();
    copy.process(tail, &mut of_copy).unwrap();
    assert_eq!(list(&symbols, &front), SYMBOLS);
    assert_eq!(list(&of_copy, &copy), SYMBOLS);
}
