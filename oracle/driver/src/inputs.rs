//! Inputs of the symbol program. Those that are planned have every kind of wrong line at the first and the last line of each
//! part, every number next to the ends of its type, and every refusal that a text can meet. Random ones are of all sheets and
//! lengths, most of them spoiled in a place or two.
//!
//! A text never meets 2, since a bank of another length is a line of wrong form or a missing one, nor 9 to 12, which refuse
//! states and buffers that the program never has.

use crate::generate;
use crate::random::Random;
use crate::sheet::{DELAYS, FIELDS, Sheet, joined};
use std::io;

/// The numbers of the refusals that a text can meet.
pub const REFUSALS: [u64; 11] = [1, 3, 4, 5, 6, 7, 8, 18, 19, 20, 29];

const I32: (i64, i64) = (i32::MIN as i64, i32::MAX as i64);
const I16: (i64, i64) = (i16::MIN as i64, i16::MAX as i64);

/// The first and the last line of the sheet, of each bank, and of the three pairs of a planned input.
const LINES: [usize; 9] = [1, 2, 65, 66, 129, 130, 193, 194, 196];

/// Fields of wrong form. The last of the ASCII ones stand next to the digits.
const FORMS: [&[u8]; 33] = [
    b"",
    b"-",
    b"-0",
    b"00",
    b"01",
    b"-01",
    b"+1",
    b"--1",
    b"1-",
    b" 1",
    b"1 ",
    b"\t1",
    b"1\r",
    b"1.0",
    b"1e3",
    b"0x1",
    b"\"1\"",
    b"1'0",
    b"1_0",
    b"a",
    b"NaN",
    b"\0",
    b"1\0",
    b"\x0b1",
    b"/",
    b":",
    "é".as_bytes(),
    "٣".as_bytes(),
    "１".as_bytes(),
    "−1".as_bytes(),
    b"\xff",
    b"\x80",
    b"1\xc3",
];

// ---- texts

/// The lines of an input, without their line feeds.
#[derive(Clone)]
struct Text(Vec<Vec<u8>>);

impl Text {
    fn of(sheet: &Sheet, pairs: &[[i16; 2]]) -> io::Result<Self> {
        let mut head = Vec::new();
        sheet.write_rows(&mut head)?;
        let rows = head.strip_suffix(b"\n").unwrap_or(&head);
        let mut lines: Vec<Vec<u8>> = rows.split(|b| *b == b'\n').map(<[u8]>::to_vec).collect();
        lines.extend(pairs.iter().map(|pair| joined(pair).into_bytes()));
        Ok(Self(lines))
    }

    fn bytes(&self) -> Vec<u8> {
        self.0.iter().flat_map(|line| ended(line)).collect()
    }

    /// The text with another line in place of its own.
    fn with(&self, line: usize, text: &[u8]) -> Self {
        let mut other = self.clone();
        other.0[line - 1] = text.to_vec();
        other
    }

    /// Where a line begins among the bytes.
    fn start(&self, line: usize) -> usize {
        self.0[..line - 1].iter().map(|l| l.len() + 1).sum()
    }
}

fn ended(line: &[u8]) -> impl Iterator<Item = u8> {
    line.iter().copied().chain([b'\n'])
}

fn fields(line: &[u8]) -> Vec<Vec<u8>> {
    line.split(|b| *b == b',').map(<[u8]>::to_vec).collect()
}

/// The line with another field in place of its own.
fn with_field(line: &[u8], at: usize, field: &[u8]) -> Vec<u8> {
    let mut all = fields(line);
    all[at] = field.to_vec();
    all.join(&b',')
}

// ---- planned ones

pub fn planned() -> io::Result<Vec<Vec<u8>>> {
    let whole = Text::of(&whole_case(), &[[1000, -1000], [0, 0], [-1000, 1000]])?;
    let mut all = vec![whole.bytes(), whole.bytes()[..whole.start(194)].to_vec()];
    all.extend(wrong_lines(&whole));
    all.extend(values(&whole));
    all.extend(lengths(&whole));
    all.extend(cuts(&whole));
    for sheet in judged() {
        let text = Text::of(&sheet, &[[7, -7]])?;
        all.extend([
            text.bytes(),
            text.with(193, b"x").bytes(),
            text.with(194, b"x").bytes(),
        ]);
    }
    for delay in DELAYS {
        all.push(lively(delay)?.bytes());
    }
    Ok(all)
}

/// Four taps, the first of which passes samples on.
fn whole_case() -> Sheet {
    let mut sheet = Sheet::of(&[
        4, 0, 33554432, 32883343, 34225520, 8, 0, 0, 0, 0, 335544, 262144, 16384, 4, 8, 6, 12, 24,
    ]);
    let passing = [16384, 0, 0, 0].repeat(64);
    sheet.banks = [passing.clone(), vec![0; 256], passing];
    sheet
}

/// A run in which every symbol's errors move period and gain, so that it shows when they are applied; of 100 symbols, which
/// fill the places of errors four times.
fn lively(delay: u8) -> io::Result<Text> {
    let mut sheet = whole_case();
    sheet.banks[1] = sheet.banks[0].clone();
    (sheet.kp, sheet.kp_shift, sheet.ki, sheet.ki_shift) = (300, 4, 200, 2);
    sheet.delay = delay;
    let pairs: Vec<[i16; 2]> = (0..200).map(|n| [n * 13 % 1500, 700 - n * 7]).collect();
    Text::of(&sheet, &pairs)
}

/// Each wrong line in each place.
fn wrong_lines(whole: &Text) -> Vec<Vec<u8>> {
    let mut all = Vec::new();
    for at in LINES {
        let right = &whole.0[at - 1];
        let last = fields(right).len() - 1;
        let mut wrong: Vec<Vec<u8>> = Vec::new();
        for form in FORMS {
            wrong.push(with_field(right, 0, form));
            wrong.push(with_field(right, last, form));
        }
        let text = |before: &[u8], after: &[u8]| [before, right, after].concat();
        wrong.extend([
            Vec::new(),
            b",".to_vec(),
            vec![b','; last],
            text(b",", b""),
            text(b"", b","),
            text(b"", b",0"),
            text(b"", b",24"),
            text(b" ", b""),
            text(b"", b" "),
            text(b"", b"\r"),
            text(b"\n", b""),
            text(b"", b"\n"),
            text("\u{feff}".as_bytes(), b""),
            text(b"\0", b""),
            fields(right)[..last].join(&b','),
            fields(right).join(&b';'),
            fields(right).join(&b", "[..]),
            fields(right).join(&b",,"[..]),
            fields(right).join(&b'\n'),
        ]);
        // both faults in one line: its form is looked at before its values
        wrong.push(with_field(&with_field(right, 0, b"4294967296"), last, b"x"));
        wrong.push(with_field(&with_field(right, 0, b"x"), last, b"4294967296"));
        all.extend(wrong.iter().map(|line| whole.with(at, line).bytes()));
    }
    all
}

/// Numbers at the ends of a type and past them, also where fewer bits of them would be within.
fn near(ends: (i64, i64)) -> Vec<String> {
    let (low, high) = (i128::from(ends.0), i128::from(ends.1));
    let mut all: Vec<i128> = vec![low - 1, low, low + 1, high - 1, high, high + 1, high + 4];
    for bits in [8, 16, 32, 63, 64, 65] {
        all.extend([(1 << bits) - 1, 1 << bits, (1 << bits) + 4, -(1 << bits)]);
    }
    all.extend([i128::MIN, i128::MAX]);
    let mut texts: Vec<String> = all.iter().map(i128::to_string).collect();
    texts.extend(["9".repeat(100), format!("-{}", "1".repeat(40))]);
    texts
}

fn values(whole: &Text) -> Vec<Vec<u8>> {
    let mut all = Vec::new();
    let mut put = |line: usize, at: usize, ends: (i64, i64)| {
        for value in near(ends) {
            let text = with_field(&whole.0[line - 1], at, value.as_bytes());
            all.push(whole.with(line, &text).bytes());
        }
    };
    for (at, ends) in FIELDS.into_iter().enumerate() {
        put(1, at, ends);
    }
    for line in &LINES[1..7] {
        put(*line, 0, I32);
        put(*line, 3, I32);
    }
    for line in &LINES[7..] {
        put(*line, 0, I16);
        put(*line, 1, I16);
    }
    for taps in [0, 1, 2, 3, 5, 6, 8, 63, 64, 65, 66, 1 << 20, u32::MAX] {
        let text = with_field(&whole.0[0], 0, taps.to_string().as_bytes());
        all.push(whole.with(1, &text).bytes());
    }
    all
}

/// Lines around the longest that is allowed, right in form and not, and lines longer than any buffer.
fn lengths(whole: &Text) -> Vec<Vec<u8>> {
    let mut all = Vec::new();
    for line in LINES {
        let commas = fields(&whole.0[line - 1]).len() - 1;
        for long in [1023, 1024, 1025, 1026, 65535, 65536, 65537, 200_000] {
            let pair = [b"1,".repeat(commas), vec![b'9'; long - 2 * commas]].concat();
            let other = vec![b'x'; long];
            for text in [&pair, &other] {
                let whole = whole.with(line, text);
                all.push(whole.bytes());
                all.push(whole.bytes()[..whole.start(line) + long].to_vec());
            }
        }
    }
    all
}

/// Every number of lines that is too small, and the first and last lines without their ends.
fn cuts(whole: &Text) -> Vec<Vec<u8>> {
    let bytes = whole.bytes();
    let mut all: Vec<Vec<u8>> = (1..=193)
        .map(|line| bytes[..whole.start(line)].to_vec())
        .collect();
    for line in LINES {
        let end = whole.start(line) + whole.0[line - 1].len();
        for cut in [whole.start(line) + 1, end - 1, end, end + 1] {
            all.push(bytes[..cut].to_vec());
        }
    }
    all
}

/// Sheets that judging refuses, and those next to them that it accepts.
fn judged() -> Vec<Sheet> {
    let mut all = Vec::new();
    let usual = whole_case();
    let mut with = |change: &dyn Fn(&mut Sheet)| {
        let mut sheet = usual.clone();
        change(&mut sheet);
        all.push(sheet);
    };
    for bank in 0..3 {
        for at in [0, 3, 252, 255] {
            let row = at / 4 * 4..at / 4 * 4 + 4;
            for c in [131071, 131072, -131072, -131073, i32::MAX, i32::MIN] {
                with(&|s| {
                    s.banks[bank][row.clone()].fill(0);
                    s.banks[bank][at] = c;
                });
            }
            // the row's magnitudes sum to 131071, and to one more
            for rest in [131070, 131071] {
                with(&|s| {
                    s.banks[bank][row.clone()].fill(0);
                    s.banks[bank][at] = rest;
                    s.banks[bank][at ^ 1] = -1;
                });
            }
        }
        // ten taps have a place on each side that is none of the detector's
        for at in [0, 9, 630, 639] {
            with(&|s| {
                s.taps = 10;
                s.banks = std::array::from_fn(|_| vec![0; 640]);
                s.banks[bank][at] = 1;
            });
        }
    }
    let (one, four) = (1 << 24, 1 << 26);
    for period in [0, one, one + 1, four - 1, four, u32::MAX] {
        with(&|s| s.period_min = period);
        with(&|s| s.period_nominal = period);
        with(&|s| s.period_max = period);
        with(&|s| (s.period_min, s.period_nominal, s.period_max) = (period, period, period));
    }
    for v in [0, 1, 2, 7, 8, 9, 15, 16, 30, 31, 40, 41, 63, 64, 255] {
        with(&|s| s.bits = v);
        with(&|s| s.q_shift = v);
        with(&|s| s.block_log2 = v);
        with(&|s| s.ted_shift = v);
        with(&|s| s.kp_shift = v);
        with(&|s| s.ki_shift = v);
        with(&|s| s.agc_shift = v);
    }
    for v in [0, 1, 2, 23, 24, 25, 26, 63, 64, 128, 254, 255] {
        with(&|s| s.delay = v);
        // what is judged before the delay, at its bound and past it
        with(&|s| (s.agc_shift, s.delay) = (63, v));
        with(&|s| (s.agc_shift, s.delay) = (64, v));
        with(&|s| (s.ki_shift, s.delay) = (41, v));
        with(&|s| (s.period_min, s.delay) = (one, v));
    }
    for v in [one - 1, one, u32::MAX] {
        with(&|s| s.agc_init = v);
    }
    for v in [i32::MIN, -1, 0, (1 << 22) - 1, 1 << 22, i32::MAX] {
        with(&|s| s.integrator_max = v);
    }
    all
}

// ---- random ones

pub fn random(r: &mut Random) -> io::Result<Vec<u8>> {
    let kind = r.pick(&[
        "small", "small", "small", "extreme", "extreme", "designed", "refused",
    ]);
    let (sheet, mut samples) = generate::sheet_with_samples(kind, r)?;
    let pairs: Vec<[i16; 2]> = (0..many(r)).map(|_| samples.next(r)).collect();
    let mut text = Text::of(&sheet, &pairs)?;
    if r.one_in(3) {
        return Ok(text.bytes());
    }
    for _ in 0..1 + r.below(2) {
        spoil_line(r, &mut text);
    }
    let mut bytes = text.bytes();
    if r.one_in(3) {
        spoil_bytes(r, &mut bytes);
    }
    Ok(bytes)
}

/// How many pairs: few as a rule, and now and then as many as fill blocks and buffers.
fn many(r: &mut Random) -> u64 {
    match r.below(24) {
        0 => 1020 + r.below(10),
        1 => 2040 + r.below(20),
        2 => r.below(5000),
        3..=6 => r.below(3),
        _ => r.below(60),
    }
}

fn spoil_line(r: &mut Random, text: &mut Text) {
    let at = a_line(r, text.0.len());
    let all = fields(&text.0[at]);
    let field = r.below(all.len() as u64) as usize;
    let ends = if at == 0 {
        FIELDS[field.min(FIELDS.len() - 1)]
    } else {
        r.pick(&[I32, I16])
    };
    match r.below(10) {
        0 => text.0.truncate(at),
        1 => {
            text.0.remove(at);
        }
        2 => {
            let line = text.0[at].clone();
            text.0.insert(at, line);
        }
        3 => {
            let other = r.below(text.0.len() as u64) as usize;
            text.0.swap(at, other);
        }
        4 => text.0[at] = all[..field].join(&b','),
        5 => {
            let zeros = vec![b'0'; 1 + r.below(3) as usize];
            text.0[at] = with_field(&text.0[at], field, &[&zeros[..], &all[field]].concat());
        }
        6 | 7 => text.0[at] = with_field(&text.0[at], field, r.pick(&FORMS)),
        _ => {
            let near = near(ends);
            let value = &near[r.below(near.len() as u64) as usize];
            text.0[at] = with_field(&text.0[at], field, value.as_bytes());
        }
    }
    if text.0.is_empty() {
        text.0.push(Vec::new());
    }
}

/// Any line, or one next to the beginning or the end of a part.
fn a_line(r: &mut Random, lines: usize) -> usize {
    let any = r.below(lines as u64) as usize;
    r.pick(&[any, any, 0, 1, 192, 193, lines - 1])
        .min(lines - 1)
}

/// Cuts the input at a byte, or puts a byte in, out or in place of another.
fn spoil_bytes(r: &mut Random, bytes: &mut Vec<u8>) {
    let at = r.below(bytes.len() as u64) as usize;
    let byte = if r.one_in(2) {
        r.pick(b"0123456789,-+ .\n\r\0")
    } else {
        r.next() as u8
    };
    match r.below(6) {
        0..=2 => bytes.truncate(at),
        3 => bytes.insert(at, byte),
        4 => bytes[at] = byte,
        _ => {
            bytes.remove(at);
        }
    }
}
