//! Lists of blocks and commits from a fresh start. isdb-rs knows no commit: up to the first that is accepted, and as far behind it
//! as a start with the new sheet would have led to the same, it stands beside the reading of docs/RULES.md (both.rs). What
//! RULES 5.2 says of lists is held against every one of them (lists.rs).

pub mod changes;

use crate::front::DELAY;
use crate::generate::{self, Samples};
use crate::outputs::Outputs;
use crate::random::Random;
use crate::reading::{Asked, Reading, SYMBOL};
use crate::rows::Rows;
use crate::run::Run;
use crate::sheet::{DELAYS, Sheet};
use changes::{At, Change, liven};
use std::io::{self, Write};

/// Pairs of a list at most; of a small or a clipping sheet's there are far fewer, so that they can be stored.
const PAIRS: u64 = 1000;
const FEW: u64 = 160;

pub fn write(kind: &str, seed: u64, count: u64, output: &mut impl Write) -> io::Result<()> {
    let mut r = Random::new(seed);
    let mut rows = Rows::new(output);
    for n in 0..count {
        list(kind, &mut rows, &mut r)
            .map_err(|e| io::Error::new(e.kind(), format!("list {n}: {e}")))?;
    }
    Ok(())
}

/// A sheet with samples, such that its loops move, as a rule.
pub fn sheet_with_samples(kind: &str, r: &mut Random) -> io::Result<(Sheet, Samples)> {
    let (mut sheet, samples) = generate::sheet_with_samples(kind, r)?;
    // a signal moves them by itself, and samples of one level are for a gain that stays
    let moves = matches!(samples, Samples::Signal { .. });
    let keeps_gain = matches!(samples, Samples::Level { .. });
    if !moves && sheet.judge().is_empty() && !r.one_in(4) {
        liven(&mut sheet, keeps_gain, r);
    }
    Ok((sheet, samples))
}

/// A list under a sheet of the delay that isdb-rs has; a delay that is refused stays.
fn list(kind: &str, rows: &mut Rows<impl Write>, r: &mut Random) -> io::Result<()> {
    let (mut sheet, mut samples) = sheet_with_samples(kind, r)?;
    if DELAYS.contains(&sheet.delay) {
        sheet.delay = DELAY;
    }
    let force = Reading::owning(sheet);
    let pairs = match kind {
        _ if !force.refusal().is_empty() => 1 + r.below(12),
        "small" | "clipping" => FEW / 2 + r.below(FEW / 2),
        _ => PAIRS / 4 + r.below(3 * PAIRS / 4),
    };
    let run = Run::start(&force, rows)?;
    let mut list = Retunes {
        run,
        force,
        samples: &mut samples,
        pairs,
        left: pairs,
        accepts_from: r.pick(&[0, 0, pairs / 8, pairs / 3]),
        follows: r.one_in(4),
        changes: Vec::new(),
        drawn: 0,
        ways: Vec::new(),
        asked: 0,
        r,
    };
    list.go_on()
}

/// How a new sheet is used.
#[derive(Clone, Copy)]
enum Way {
    Ask,
    Commit,
    /// Asking, and committing with the ticket.
    Both,
    /// The same twice.
    Twice,
    /// With another ticket, and then with the right one.
    WrongTicket,
    /// With the ticket of an ask behind which blocks have made no symbol.
    Quiet,
    /// With the ticket of an ask behind which a symbol was made.
    Late,
    /// With the ticket of an ask behind which another sheet was committed.
    Between,
    /// A block under it, and then under the sheet in force.
    Block,
    Read,
    /// Others with faults of several kinds, one behind the other.
    Faults,
}

impl Way {
    const ALL: [Self; 14] = [
        Self::Ask,
        Self::Commit,
        Self::Commit,
        Self::Both,
        Self::Both,
        Self::Twice,
        Self::WrongTicket,
        Self::Quiet,
        Self::Quiet,
        Self::Late,
        Self::Between,
        Self::Block,
        Self::Read,
        Self::Faults,
    ];
}

struct Retunes<'a, 'b, 'c, W> {
    run: Run<'a, 'b, W>,
    /// The sheet in force.
    force: Reading<'static>,
    samples: &'c mut Samples,
    /// Pairs in all, and those that are still to come.
    pairs: u64,
    left: u64,
    /// Before so many pairs no commit has the right ticket, so that isdb-rs stays beside the reading.
    accepts_from: u64,
    /// Nor ever one behind which isdb-rs could not stay.
    follows: bool,
    /// Each of them comes once before one comes again.
    changes: Vec<Change>,
    /// How many came.
    drawn: usize,
    ways: Vec<Way>,
    /// The ticket that was given last.
    asked: u64,
    r: &'c mut Random,
}

impl<W: Write> Retunes<'_, '_, '_, W> {
    /// Retunes before the first sample, between blocks, and behind the last sample.
    fn go_on(&mut self) -> io::Result<()> {
        self.retunes()?;
        while self.left > 0 {
            let size = self.r.below(self.pairs / 4 + 2);
            self.feed(size)?;
            // anywhere, right before a sample with a symbol, or right behind it
            match self.r.below(4) {
                0 => (),
                1 => self.feed(self.quiet_pairs())?,
                _ => self.feed(self.quiet_pairs() + 1)?,
            }
            self.retunes()?;
        }
        // behind the last sample, until there was a sheet of every change; behind a start that is refused, all of that is refused
        while self.drawn < Change::ALL.len() && self.force.refusal().is_empty() {
            self.retune()?;
        }
        // one that is accepted, if the start was
        let held = self.force.clone();
        self.commit(&held, self.ticket())?;
        self.run.read(&self.force)?;
        self.run.tell_state()?;
        self.run.list().check(self.r)
    }

    /// Several at one count of samples, as long as no block comes between.
    fn retunes(&mut self) -> io::Result<()> {
        for _ in 0..1 + self.r.below(6) {
            self.retune()?;
        }
        Ok(())
    }

    fn retune(&mut self) -> io::Result<()> {
        let new = self.new_sheet();
        match draw(&mut self.ways, &Way::ALL, self.r) {
            Way::Ask => {
                self.ask(&new)?;
            }
            Way::Commit => {
                self.commit(&new, self.ticket())?;
            }
            Way::Both => {
                let asked = self.ask(&new)?;
                self.commit_asked(&new, &asked)?;
            }
            Way::Twice => {
                self.commit(&new, self.ticket())?;
                self.commit(&new, self.ticket())?;
            }
            Way::WrongTicket => {
                let wrong = self.wrong_ticket();
                self.commit(&new, wrong)?;
                self.commit(&new, self.ticket())?;
            }
            Way::Quiet => {
                self.feed_to_quiet()?;
                let asked = self.ask(&new)?;
                for _ in 0..self.quiet_pairs() {
                    self.feed(1)?;
                }
                self.commit_asked(&new, &asked)?;
            }
            Way::Late => {
                let asked = self.ask(&new)?;
                self.feed(self.quiet_pairs() + 1)?;
                self.commit_asked(&new, &asked)?;
            }
            Way::Between => {
                let asked = self.ask(&new)?;
                let other = self.new_sheet();
                self.commit(&other, self.ticket())?;
                self.commit_asked(&new, &asked)?;
            }
            Way::Block => self.block_under(&new)?,
            Way::Read => {
                self.run.read(&new)?;
                self.run.read(&self.force)?;
            }
            Way::Faults => self.faults()?,
        }
        Ok(())
    }

    // ---- retunes

    fn new_sheet(&mut self) -> Reading<'static> {
        self.drawn += 1;
        let change = draw(&mut self.changes, &Change::ALL, self.r);
        Reading::owning(at(&self.force, &self.run).changed(change, self.r))
    }

    fn ask(&mut self, new: &Reading) -> io::Result<Asked> {
        let asked = self.run.ask(new)?;
        self.asked = asked.ticket;
        if self.r.one_in(6) {
            self.run.tell_state()?;
        }
        Ok(asked)
    }

    /// The ticket that is right now.
    fn ticket(&self) -> u64 {
        self.run.list().state().symbols as u64
    }

    /// One that is not: next to it, the number of something else, or with some bits of it.
    fn wrong_ticket(&mut self) -> u64 {
        let right = self.ticket();
        let samples = self.run.list().state().samples as u64;
        let (above, below) = (right.wrapping_add(1), right.wrapping_sub(1));
        let more = [1 << 32, 1 << 63].map(|bit| right ^ bit);
        let any = self.r.next();
        let wrong = self.r.pick(&[
            0,
            above,
            below,
            samples,
            self.asked,
            more[0],
            more[1],
            any,
            u64::MAX,
        ]);
        if wrong == right { above } else { wrong }
    }

    /// Whether a commit may be accepted.
    fn may_accept(&self, new: &Reading) -> bool {
        self.pairs - self.left >= self.accepts_from && (!self.follows || self.run.can_follow(new))
    }

    /// Commits, goes on under the new sheet where that is accepted, and says whether it was.
    fn commit(&mut self, new: &Reading<'static>, ticket: u64) -> io::Result<bool> {
        let ticket = match ticket == self.ticket() && !self.may_accept(new) {
            true => self.wrong_ticket(),
            false => ticket,
        };
        let is_accepted = self.run.commit(new, ticket)?;
        if is_accepted {
            self.force = new.clone();
        }
        if self.r.one_in(if is_accepted { 3 } else { 10 }) {
            self.run.tell_state()?;
        }
        Ok(is_accepted)
    }

    /// Commits with the ticket that asking gave. RULES 5.3: it holds until a symbol is made, whatever was called in between.
    fn commit_asked(&mut self, new: &Reading<'static>, asked: &Asked) -> io::Result<()> {
        let holds = asked.ticket == self.ticket() && asked.refusal.is_empty();
        let holds = holds && self.may_accept(new);
        match self.commit(new, asked.ticket)? == holds {
            true => Ok(()),
            false => Err(io::Error::other(
                "RULES 5.3 does not hold of the reading: how long a ticket is good",
            )),
        }
    }

    /// Sheets with faults of several kinds, with other taps or with those in force.
    fn faults(&mut self) -> io::Result<()> {
        let base = match self.r.one_in(2) {
            true => at(&self.force, &self.run).other_taps(self.r),
            false => self.force.sheet().clone(),
        };
        for _ in 0..4 + self.r.below(6) {
            let sheet = at(&self.force, &self.run).faults(base.clone(), self.r);
            let new = Reading::owning(sheet);
            match self.r.below(3) {
                0 => {
                    self.ask(&new)?;
                }
                1 => {
                    self.commit(&new, self.ticket())?;
                }
                _ => {
                    let wrong = self.wrong_ticket();
                    self.commit(&new, wrong)?;
                }
            }
        }
        Ok(())
    }

    // ---- blocks

    /// A few pairs under other sheets, and then under the sheet in force. All but the last block are refused, unless they have the
    /// held fields.
    fn block_under(&mut self, new: &Reading) -> io::Result<()> {
        let size = self.r.below(4);
        let values = self.next_values(size);
        let fields = [Change::OneField, Change::Delay, Change::Many];
        let change = match self.r.one_in(12) {
            true => Change::Banks,
            false => self.r.pick(&fields),
        };
        let other = at(&self.force, &self.run).changed(change, self.r);
        let mut rest = &values[..];
        for reading in [new, &Reading::owning(other)] {
            let block = self.run.block(reading, rest, SYMBOL * rest.len() / 2)?;
            rest = &rest[2 * block.taken..];
        }
        self.run.offer(&self.force, rest, Outputs::Enough, self.r)
    }

    /// So many pairs under the sheet in force, or as many as there still are.
    fn feed(&mut self, size: u64) -> io::Result<()> {
        let values = self.next_values(size);
        let outputs = match values.len() {
            0..50 if self.r.one_in(3) => Outputs::any(self.r),
            _ => Outputs::Enough,
        };
        self.run.offer(&self.force, &values, outputs, self.r)
    }

    fn next_values(&mut self, size: u64) -> Vec<i16> {
        let size = size.min(self.left);
        self.left -= size;
        (0..size).flat_map(|_| self.samples.next(self.r)).collect()
    }

    /// How many pairs come before that with the next symbol.
    fn quiet_pairs(&self) -> u64 {
        (self.run.list().state().t_acc >> 24) as u64
    }

    /// Pair by pair to where the next brings no symbol, if that is not far.
    fn feed_to_quiet(&mut self) -> io::Result<()> {
        for _ in 0..6 {
            if self.quiet_pairs() == 0 {
                self.feed(1)?;
            }
        }
        Ok(())
    }
}

fn at<'s>(force: &'s Reading, run: &'s Run<impl Write>) -> At<'s> {
    let list = run.list();
    At {
        sheet: force.sheet(),
        sheets: list.sheets(),
        state: list.state(),
    }
}

/// One of those that are left; where none is, all are there again.
fn draw<T: Copy>(left: &mut Vec<T>, all: &[T], r: &mut Random) -> T {
    if left.is_empty() {
        left.extend(all);
    }
    left.swap_remove(r.below(left.len() as u64) as usize)
}
