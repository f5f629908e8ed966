//! A front end's whole state. isdb-rs keeps it private, but shows all of it in its debug form, which is read here.

use crate::sheet::{FIELDS, joined};
use isdb_frontend::fixed::Frontend;
use std::io::{self, Write};

/// Places for errors, whatever the delay.
pub const RING: usize = 24;

/// Pairs of errors by their places.
pub type Errors = [[i128; 2]; RING];

/// The fields of a sheet, in their order.
pub type Held = [i64; FIELDS.len()];

/// A state in the form that RULES 3.1 gives it, with its numbers wide enough for any that its types can hold.
#[derive(Debug, Clone)]
pub struct State {
    pub nco: i128,
    pub t_acc: i128,
    pub v: i128,
    pub period: i128,
    pub gain_acc: i128,
    pub symbols: i128,
    /// Position of the newest pair in the line.
    pub head: i128,
    /// Position of the errors that have waited longest.
    pub oldest: i128,
    /// How many errors wait.
    pub waiting: i128,
    pub samples: i128,
    /// The fields of the sheet that the state runs under.
    pub held: Held,
    pub line: [[i128; 2]; 64],
    pub errors: Errors,
}

impl State {
    pub fn zeros() -> Self {
        Self {
            nco: 0,
            t_acc: 0,
            v: 0,
            period: 0,
            gain_acc: 0,
            symbols: 0,
            head: 0,
            oldest: 0,
            waiting: 0,
            samples: 0,
            held: [0; FIELDS.len()],
            line: [[0, 0]; 64],
            errors: [[0, 0]; RING],
        }
    }

    /// The state of a front end of isdb-rs. Its queue has no positions: those of RULES 3.6 follow from the symbols that
    /// were made, symbol j's errors standing at place j modulo 24. It keeps nothing of errors that no longer wait; `left` is
    /// what the symbols left in all places. What it holds of its sheet has no delay, and is given likewise.
    pub fn of(front: &Frontend, held: Held, left: &Errors) -> Self {
        let text = format!("{front:?}");
        let text = whole(&text);
        let number = |name| value(text, name).parse().expect("a number");
        let symbols: i128 = number("symbols");
        let waiting = pairs(text, "pending");
        let mut state = Self {
            nco: number("nco"),
            t_acc: number("t_acc"),
            v: number("v"),
            period: number("period"),
            gain_acc: number("gain_acc"),
            symbols,
            head: number("head"),
            oldest: (symbols - waiting.len() as i128) % RING as i128,
            waiting: waiting.len() as i128,
            samples: number("samples"),
            held,
            errors: *left,
            ..Self::zeros()
        };
        for (place, pair) in state.line.iter_mut().zip(pairs(text, "line")) {
            *place = pair;
        }
        for (j, errors) in (symbols - state.waiting..).zip(waiting) {
            state.errors[j as usize % RING] = errors;
        }
        state
    }

    /// The 204 numbers of a row: ten of the state's own, the fields of the held sheet, the line's pairs, the waiting errors
    /// by their places.
    pub fn numbers(&self) -> Vec<i64> {
        let pairs = self.line.iter().chain(&self.errors).flatten();
        self.places()
            .into_iter()
            .chain(pairs.map(|n| *n as i64))
            .collect()
    }

    /// The first 28 of these. An unsigned number of 64 bits is the signed one that has its bits.
    pub fn places(&self) -> Vec<i64> {
        let own = [
            self.nco,
            self.t_acc,
            self.v,
            self.period,
            self.gain_acc,
            self.symbols,
            self.head,
            self.oldest,
            self.waiting,
            self.samples,
        ];
        own.into_iter().map(|n| n as i64).chain(self.held).collect()
    }

    /// Three lines: position of the newest pair, nco, t, v, period, gain accumulator, samples, symbols; then the line's
    /// pairs in the order in which they are stored, so many as there are taps; then the waiting errors, the oldest first.
    pub fn write(&self, taps: u32, output: &mut impl Write) -> io::Result<()> {
        let own = [
            self.head,
            self.nco,
            self.t_acc,
            self.v,
            self.period,
            self.gain_acc,
            self.samples,
            self.symbols,
        ];
        let errors = |n: i128| self.errors[(self.oldest + n) as usize % RING];
        let waiting: Vec<i128> = (0..self.waiting).flat_map(errors).collect();
        let line = self.line[..taps as usize].as_flattened();
        for (name, numbers) in [("state", &own[..]), ("line", line), ("waiting", &waiting)] {
            let comma = if numbers.is_empty() { "" } else { "," };
            writeln!(output, "{name}{comma}{}", joined(numbers))?;
        }
        Ok(())
    }
}

/// The debug form from where the state begins: before that stand the parameters and the cosine table.
fn whole(text: &str) -> &str {
    &text[text
        .rfind(", taps: ")
        .expect("Frontend's debug form has taps")..]
}

fn after<'a>(text: &'a str, name: &str) -> &'a str {
    let key = format!(", {name}: ");
    &text[text
        .find(&key)
        .unwrap_or_else(|| panic!("Frontend's debug form has {name}"))
        + key.len()..]
}

fn value(text: &str, name: &str) -> String {
    after(text, name)
        .chars()
        .take_while(|c| c.is_ascii_digit() || *c == '-')
        .collect()
}

/// A list of pairs.
fn pairs(text: &str, name: &str) -> Vec<[i128; 2]> {
    let numbers: Vec<i128> = flat(text, name)
        .split(',')
        .skip(1)
        .map(|n| n.parse().expect("a number"))
        .collect();
    numbers.chunks(2).map(|pair| [pair[0], pair[1]]).collect()
}

/// The numbers of a list of pairs, each with a comma before it.
fn flat(text: &str, name: &str) -> String {
    let list = after(text, name);
    let close = |open: char| if open == '[' { ']' } else { ')' };
    let mut depth = Vec::new();
    let mut out = String::new();
    let mut number = String::new();
    for c in list.chars() {
        if c.is_ascii_digit() || c == '-' {
            number.push(c);
            continue;
        }
        if !number.is_empty() {
            out.push(',');
            out.push_str(&number);
            number.clear();
        }
        match c {
            '[' | '(' => depth.push(close(c)),
            ']' | ')' => {
                assert_eq!(depth.pop(), Some(c));
                if depth.is_empty() {
                    break;
                }
            }
            _ => {}
        }
    }
    out
}
