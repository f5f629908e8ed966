//! Lists of blocks and commits by the reading of docs/RULES.md: what each has accepted and made so far; and what RULES 5.2 says of
//! lists, held against it. The reading has no part of that theorem in it, so that this is a check of the reading itself,
//! also where isdb-rs has no counterpart.

use crate::random::Random;
use crate::reading::{Block, Committed, Reading, SYMBOL};
use crate::sheet::Sheet;
use crate::state::State;
use std::io;

pub struct List {
    /// The sheets under which something was accepted, that of the start first.
    sheets: Vec<Sheet>,
    accepted: Vec<Accepted>,
    /// The numbers of all symbols.
    symbols: Vec<i64>,
    clips: u64,
    /// What the last call handed back.
    state: State,
}

/// What a list has accepted, with the number of the sheet.
enum Accepted {
    /// Pairs that were taken one behind the other, by however many blocks.
    Pairs(usize, Vec<[i16; 2]>),
    Commit(usize),
}

/// Places of a symbol.
const SAMPLE: usize = 0;
const PHASE: usize = 1;
const GAIN: usize = 8;
const PERIOD: usize = 9;

impl List {
    pub fn start(reading: &Reading) -> Self {
        Self {
            sheets: vec![reading.sheet().clone()],
            accepted: Vec::new(),
            symbols: Vec::new(),
            clips: 0,
            state: reading.start(),
        }
    }

    pub fn state(&self) -> &State {
        &self.state
    }

    /// The clips of all blocks.
    pub fn clips(&self) -> u64 {
        self.clips
    }

    /// The sheets under which something was accepted, each once.
    pub fn sheets(&self) -> &[Sheet] {
        &self.sheets
    }

    /// All pairs that were taken.
    pub fn pairs(&self) -> Vec<[i16; 2]> {
        let pairs = self.accepted.iter().map(|accepted| match accepted {
            Accepted::Pairs(_, pairs) => &pairs[..],
            Accepted::Commit(_) => &[],
        });
        pairs.collect::<Vec<_>>().concat()
    }

    pub fn block(&mut self, reading: &Reading, values: &[i16], places: usize) -> Block {
        let block = reading.block(&self.state, values, places);
        if block.taken > 0 {
            let sheet = self.number(reading.sheet());
            let taken = &values.as_chunks().0[..block.taken];
            match self.accepted.last_mut() {
                Some(Accepted::Pairs(under, pairs)) if *under == sheet => pairs.extend(taken),
                _ => self.accepted.push(Accepted::Pairs(sheet, taken.to_vec())),
            }
        }
        self.symbols.extend(&block.output);
        self.clips += block.clips();
        self.state = block.state.clone();
        block
    }

    pub fn commit(&mut self, reading: &Reading, ticket: u64) -> Committed {
        let committed = reading.commit(&self.state, ticket);
        if committed.refusal.is_empty() {
            let sheet = self.number(reading.sheet());
            self.accepted.push(Accepted::Commit(sheet));
        }
        self.state = committed.state.clone();
        committed
    }

    /// The sheet's number in this list.
    fn number(&mut self, sheet: &Sheet) -> usize {
        let known = self.sheets.iter().position(|s| s == sheet);
        known.unwrap_or_else(|| {
            self.sheets.push(sheet.clone());
            self.sheets.len() - 1
        })
    }

    // ---- what holds of lists

    /// Fails where what RULES 5.2 says does not hold of this list, or of it and another one that is made of it here.
    pub fn check(&self, r: &mut Random) -> io::Result<()> {
        self.check_places()?;
        self.check_cuts(r)?;
        self.check_ahead(r)
    }

    /// 5.2, 1 to 3: where symbols fall, and the rest behind the last.
    fn check_places(&self) -> io::Result<()> {
        let mut sum = 0;
        let mut before = None;
        for (k, symbol) in self.symbols.chunks(SYMBOL).enumerate() {
            let sample = symbol[SAMPLE];
            let place = 64 * sample + symbol[PHASE];
            holds(place == sum >> 18, || format!("1, of symbol {k}"))?;
            let apart = before.is_none_or(|before| (1..=4).contains(&(sample - before)));
            holds(apart, || format!("2, of symbol {k}"))?;
            before = Some(sample);
            sum += symbol[PERIOD];
        }
        let whole = (self.pairs().len() as i128) << 24;
        let t = self.state.t_acc;
        let rest = i128::from(sum) == whole + t && (0..1 << 26).contains(&t);
        holds(rest, || "3".to_string())
    }

    /// 5.2, 5: the same pairs and commits without the calls that were refused, and with other blocks.
    fn check_cuts(&self, r: &mut Random) -> io::Result<()> {
        let other = self.again(usize::MAX, i64::MAX, r);
        let same = other.symbols == self.symbols
            && other.clips == self.clips
            && other.state.numbers() == self.state.numbers();
        holds(same, || "5, with its blocks cut anew".to_string())
    }

    /// 5.2, 4: other pairs behind the sample of a symbol.
    fn check_ahead(&self, r: &mut Random) -> io::Result<()> {
        let symbols: Vec<&[i64]> = self.symbols.chunks(SYMBOL).collect();
        if symbols.is_empty() {
            return Ok(());
        }
        let i = r.below(symbols.len() as u64) as usize;
        let end = i + usize::from(self.sheets[0].delay);
        let same = symbols[i][SAMPLE] as usize + 1;
        let told = || format!("4, with other pairs behind symbol {i}");
        let other = self.again(same, i64::MAX, r);
        let made = other.same_ahead(&symbols, i, end, told)?;
        // what a commit is refused for was the same up to this symbol, so none may have ended the other list before it
        let all = other.accepted.len() == self.accepted.len();
        holds(all || made > end + 1, told)?;

        // And without the commits behind the sample of a later symbol. It draws numbers of its own, so that no other list depends on it.
        let mut r = Random::new(symbols[i][PERIOD] as u64);
        let k = (i + r.below((end - i) as u64 + 1) as usize).min(symbols.len() - 1);
        let told = || format!("4, with other pairs behind symbol {i} and no commit behind {k}");
        let other = self.again(same, symbols[k][SAMPLE], &mut r);
        let made = other.same_ahead(&symbols, i, k, told)?;
        holds(made > k, told)
    }

    /// Symbols 0 to i are these, place for place, and those up to the end have their timing, where both have them. Answers how many there are.
    fn same_ahead(
        &self,
        symbols: &[&[i64]],
        i: usize,
        end: usize,
        told: impl Fn() -> String,
    ) -> io::Result<usize> {
        let own: Vec<&[i64]> = self.symbols.chunks(SYMBOL).collect();
        holds(own.len() > i && own[..=i] == symbols[..=i], &told)?;
        for (one, other) in symbols.iter().zip(&own).take(end + 1) {
            let same = [SAMPLE, PHASE, GAIN, PERIOD].map(|place| one[place] == other[place]);
            holds(same == [true; 4], &told)?;
        }
        Ok(own.len())
    }

    /// The list once more, in blocks of other sizes: the same pairs, so many of them, and others in place of those behind; and the same
    /// commits, up to the first behind more than so many samples, from which on the sheet in force stays. It ends before a commit that
    /// is refused.
    fn again(&self, same: usize, last: i64, r: &mut Random) -> Self {
        let readings: Vec<Reading> = self.sheets.iter().map(Reading::of).collect();
        let mut list = Self::start(&readings[0]);
        let mut count = 0;
        let mut stays = None;
        let mut force = 0;
        for accepted in &self.accepted {
            match accepted {
                Accepted::Pairs(sheet, pairs) => {
                    let sheet = stays.as_ref().unwrap_or(sheet);
                    let mut pairs = pairs.clone();
                    let kept = same.saturating_sub(count).min(pairs.len());
                    count += pairs.len();
                    pairs[kept..].fill_with(|| [r.next() as i16, r.next() as i16]);
                    let mut left = &pairs[..];
                    while !left.is_empty() {
                        let most = r.pick(&[1, 4, left.len()]).min(left.len());
                        let size = 1 + r.below(most as u64) as usize;
                        let (block, rest) = left.split_at(size);
                        list.block(&readings[*sheet], block.as_flattened(), SYMBOL * size);
                        left = rest;
                    }
                }
                Accepted::Commit(_) if stays.is_some() || count as i64 > last => {
                    stays = Some(force);
                }
                Accepted::Commit(sheet) => {
                    force = *sheet;
                    let ticket = readings[*sheet].ask(&list.state).ticket;
                    if !list.commit(&readings[*sheet], ticket).refusal.is_empty() {
                        break;
                    }
                }
            }
        }
        list
    }
}

fn holds(holds: bool, what: impl FnOnce() -> String) -> io::Result<()> {
    match holds {
        true => Ok(()),
        false => Err(io::Error::other(format!(
            "RULES 5.2 does not hold of the reading: {}",
            what()
        ))),
    }
}
