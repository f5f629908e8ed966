//! A run from a fresh start, through the archive, by the reading of docs/RULES.md and, under the delay that isdb-rs was built with, by isdb-rs, in blocks of
//! all sizes and with outputs that are too short for them, half of the runs with other sheets committed between blocks; and what comes of its end state when
//! it is changed.

use crate::calls::{Call, any_room};
use crate::lent::{Lent, LentState, answered};
use crate::rules;
use crate::tally::Tally;
use archive_calls::{Sheet, State};
use huntelm::archive::BLOCK;
use oracle::both::Both;
use oracle::generate::Samples;
use oracle::outputs::Outputs;
use oracle::random::Random;
use oracle::reading::{Block, Reading};
use oracle::retunes::changes::{At, Change};
use oracle::sheet::Sheet as Fields;
use oracle::state::State as Read;
use oracle::states;

/// Changed states after a run.
const CHANGED: u64 = 8;

/// Where the reading and isdb-rs differ, there is nothing to compare with.
const AGREED: &str = "the reading and isdb-rs agree";

pub struct Run<'a> {
    /// The sheet in force.
    force: Reading<'static>,
    /// The same as the archive is lent it.
    sheet: Sheet,
    both: Both,
    state: LentState,
    /// Whether other sheets come into force.
    is_retuned: bool,
    tally: &'a mut Tally,
    r: &'a mut Random,
}

impl<'a> Run<'a> {
    pub fn start(
        fields: Fields,
        is_retuned: bool,
        tally: &'a mut Tally,
        r: &'a mut Random,
    ) -> Self {
        let sheet = Sheet::from(&fields);
        let force = Reading::owning(fields);
        let both = Both::start(&force);
        let mut state = LentState::any(&State::zeros(), r);
        tally.answer("judging", sheet.lent().judge() == 0);
        let number = sheet.lent().start(state.writable());
        let fresh = State::from(both.state().expect(AGREED));
        tally.answer("starting", number == 0 && state.holds(&fresh));
        Self {
            force,
            sheet,
            both,
            state,
            is_retuned,
            tally,
            r,
        }
    }

    /// Runs so many pairs, with calls between the blocks in which something is wrong.
    pub fn go_on(&mut self, pairs: u64, samples: &mut Samples) {
        let mut left = pairs;
        while left > 0 {
            if self.is_retuned {
                for _ in 0..self.r.below(4) {
                    self.retune();
                }
            }
            let outputs = Outputs::any(self.r);
            let size = self.block_size(outputs).min(left);
            left -= size;
            let block: Vec<[i16; 2]> = (0..size).map(|_| samples.next(self.r)).collect();
            self.offer(&block, outputs);
            if left == 0 || self.r.one_in(4) {
                self.look();
            }
            if self.r.one_in(4) {
                self.wrong_calls();
            }
        }
    }

    /// Pairs of a block. One that is taken a pair or two at a time has few, since each call judges the sheet.
    fn block_size(&mut self, outputs: Outputs) -> u64 {
        if outputs == Outputs::Tiny {
            return self.r.below(200);
        }
        match self.r.below(8) {
            0 => self.r.below(3),
            1 | 2 => self.r.below(30),
            3..=5 => self.r.below(600),
            _ => self.r.below(5000),
        }
    }

    /// Offers a block, and again what is left of it, until all of it is taken. Now and then the output has thousands of places
    /// more.
    fn offer(&mut self, block: &[[i16; 2]], outputs: Outputs) {
        let mut rest = block;
        loop {
            let more = if self.r.one_in(16) { 3000 } else { 0 };
            let places = outputs.places(self.r, rest.len()) + more;
            let taken = self.block(rest, places);
            rest = &rest[taken..];
            if rest.is_empty() {
                return;
            }
            if self.r.one_in(64) {
                self.look();
            }
        }
    }

    /// A block, and how many pairs it takes. Now and then its answer has too few places, which refuses it.
    fn block(&mut self, pairs: &[[i16; 2]], places: usize) -> usize {
        let values = pairs.as_flattened();
        let room = match self.r.one_in(16) {
            true => self.r.below(BLOCK as u64) as usize,
            false => any_room(self.r),
        };
        let mut output = Lent::any(places, self.r);
        let mut answer = Lent::any(room, self.r);
        self.state.keep();
        let number = self.sheet.lent().block(
            self.state.writable(),
            values,
            output.places(),
            answer.places(),
        );
        self.tally.refusal(number);
        match self.right(values, places, room) {
            Err(right) => {
                let untouched =
                    self.state.is_untouched() && output.is_untouched() && answer.is_untouched();
                self.tally
                    .answer("a refused block of a run", number == right && untouched);
                0
            }
            Ok(block) => {
                let right = self.state.holds(&State::from(&block.state))
                    && output.begins_with(&block.output)
                    && answer.begins_with(&rules::block_answer(&block));
                self.tally.block(pairs.len(), &block);
                self.tally.answer("a block of a run", number == 0 && right);
                block.taken
            }
        }
    }

    /// What a block of the run is to leave, or the number that refuses it.
    fn right(&mut self, values: &[i16], places: usize, room: usize) -> Result<Block, u32> {
        if room < BLOCK {
            return Err(11);
        }
        let block = self.both.block(&self.force, values, places);
        let block = block.expect(AGREED);
        numbered(&block.refusal).map(|()| block)
    }

    /// Asks for another sheet, and commits it, as a rule with the right ticket.
    fn retune(&mut self) {
        let state = self.right_state();
        let at = At {
            sheet: self.force.sheet(),
            sheets: self.both.list().sheets(),
            state: &state,
        };
        let change = self.r.pick(&Change::ALL);
        let new = Reading::owning(at.changed(change, self.r));
        let sheet = Sheet::from(new.sheet());
        self.state.keep();
        let mut answer = Lent::any(any_room(self.r), self.r);
        let number = sheet.lent().ask(self.state.readable(), answer.places());
        self.tally.refusal(number);
        let asked = self.both.ask(&new);
        let right = numbered(&asked.refusal).map(|()| [asked.ticket as i64]);
        let right = answered(number, &answer, right) && self.state.is_untouched();
        self.tally.answer("asking in a run", right);
        let ticket = states::any_ticket(self.r, &state);
        let number = self.state.commit(&sheet, ticket);
        self.tally.refusal(number);
        let committed = self.both.commit(&new, ticket).expect(AGREED);
        let right = numbered(&committed.refusal);
        let after = State::from(&committed.state);
        let is_right = self.state.answered(number, right.as_ref().map(|()| &after));
        self.tally.answer("committing in a run", is_right);
        if right.is_ok() {
            self.tally.commits += 1;
            (self.force, self.sheet) = (new, sheet);
        }
    }

    fn right_state(&self) -> Read {
        self.both.state().expect(AGREED).clone()
    }

    /// The state, what is read of it, and the offset of its period. isdb-rs shows its state as a long text only, so this is done after some blocks and not
    /// after each.
    fn look(&mut self) {
        let right = self.right_state();
        self.state.keep();
        let state = self.state.holds(&State::from(&right));
        self.tally.answer("the state of a run", state);
        let mut answer = Lent::any(4, self.r);
        let number = self
            .sheet
            .lent()
            .read(self.state.readable(), answer.places());
        let read = self.both.read(&self.force).expect(AGREED).numbers;
        let read = number == 0 && answer.begins_with(&read);
        self.tally.answer("reading a run", read);
        let call = Call::good(&self.sheet, &right, 0, self.r);
        call.offset(Ok(&self.force), self.tally, self.r);
    }

    /// Calls in which something is wrong. They change nothing, so the run goes on as if they had not been.
    fn wrong_calls(&mut self) {
        let state = self.right_state();
        for _ in 0..4 {
            let pairs = self.r.below(6);
            let mut call = Call::good(&self.sheet, &state, pairs, self.r);
            call.spoil(self.force.sheet(), &state, self.r);
            call.all(self.tally, self.r);
        }
    }

    /// The end state changed at random, within what refusal 9 lets pass, often with any sheet held, and commits and blocks from it on. isdb-rs cannot be
    /// given such a state, so the reading of docs/RULES.md answers.
    pub fn change(&mut self) {
        let reading = &self.force;
        let end = self.right_state();
        for _ in 0..CHANGED {
            let mut state = states::changed(self.r, reading.sheet(), &end);
            if self.r.one_in(2) {
                state.held = states::any_held(self.r, reading.sheet(), &state);
            }
            self.tally.changed += 1;
            for _ in 0..1 + self.r.below(3) {
                let pairs = self.r.pick(&[0, 1, 12, 40, 200]);
                let mut call = Call::good(&self.sheet, &state, pairs, self.r);
                call.read(Ok(reading), self.tally, self.r);
                call.offset(Ok(reading), self.tally, self.r);
                call.ask(Ok(reading), self.tally, self.r);
                call.ticket = states::any_ticket(self.r, &state);
                if let Some(after) = call.commit(Ok(reading), self.tally, self.r) {
                    call.state = State::from(&after);
                }
                let Some(after) = call.block(Ok(reading), self.tally, self.r) else {
                    break;
                };
                state = after;
            }
        }
    }
}

/// The number of a refusal, where there is one.
fn numbered(refusal: &[i64]) -> Result<(), u32> {
    match refusal.first() {
        Some(number) => Err(*number as u32),
        None => Ok(()),
    }
}
