//! A call with all that it is lent, made through the archive and held against the rules; and the faults that such a call can have.

use crate::lent::{Lent, LentState, answered};
use crate::rules;
use crate::tally::Tally;
use archive_calls::{Sheet, State};
use huntelm::archive::{BLOCK, ERRORS, LINE, SHEET, STATE, STATE_SHEET, SYMBOL};
use oracle::generate;
use oracle::random::Random;
use oracle::reading::Reading;
use oracle::retunes::changes::{At, Change};
use oracle::sheet::{FIELDS, Sheet as Fields};
use oracle::state::State as Read;
use oracle::states;

pub struct Call {
    pub sheet: Sheet,
    pub state: State,
    pub values: Vec<i16>,
    /// Places for symbols.
    pub places: usize,
    /// Places for the answer of a block, of a reading, of an ask or of an offset.
    pub room: usize,
    pub period: u32,
    pub ticket: u64,
}

impl Call {
    /// A call of a state with a few pairs, in which nothing is wrong.
    pub fn good(sheet: &Sheet, state: &Read, pairs: u64, r: &mut Random) -> Self {
        let values: Vec<i16> = (0..2 * pairs).map(|_| r.next() as i16).collect();
        let enough = rules::enough(&values);
        let some = SYMBOL + r.below(enough as u64 + 1) as usize;
        Self {
            sheet: sheet.clone(),
            state: state.into(),
            places: r.pick(&[some, some, enough, enough, enough + 1, enough + 45]),
            values,
            room: any_room(r),
            period: state.period as u32,
            ticket: state.symbols as u64,
        }
    }

    /// All calls with what this one is lent.
    pub fn all(&self, tally: &mut Tally, r: &mut Random) {
        let fields = rules::accepted(&self.sheet);
        let reading = fields.as_ref().map(Reading::of).map_err(|number| *number);
        let reading = reading.as_ref().map_err(|number| *number);
        let number = self.sheet.lent().judge();
        tally.refusal(number);
        tally.answer("judging", number == reading.err().unwrap_or(0));
        self.start(reading, tally, r);
        self.offset(reading, tally, r);
        self.read(reading, tally, r);
        self.ask(reading, tally, r);
        self.commit(reading, tally, r);
        self.block(reading, tally, r);
    }

    fn start(&self, reading: Result<&Reading, u32>, tally: &mut Tally, r: &mut Random) {
        let mut state = LentState::any(&self.state, r);
        let number = self.sheet.lent().start(state.writable());
        tally.refusal(number);
        let right = rules::start(reading, self);
        tally.answer("starting", state.answered(number, right.as_ref()));
    }

    pub fn offset(&self, reading: Result<&Reading, u32>, tally: &mut Tally, r: &mut Random) {
        let mut answer = Lent::any(self.room, r);
        let number = self.sheet.lent().offset(self.period, answer.places());
        tally.refusal(number);
        let right = rules::offset(reading, self);
        tally.answer("the offset", answered(number, &answer, right));
    }

    pub fn read(&self, reading: Result<&Reading, u32>, tally: &mut Tally, r: &mut Random) {
        let state = LentState::holding(&self.state, r);
        let mut answer = Lent::any(self.room, r);
        let number = self.sheet.lent().read(state.readable(), answer.places());
        tally.refusal(number);
        let right = answered(number, &answer, rules::read(reading, self));
        tally.answer("reading", right && state.is_untouched());
    }

    pub fn ask(&self, reading: Result<&Reading, u32>, tally: &mut Tally, r: &mut Random) {
        let state = LentState::holding(&self.state, r);
        let mut answer = Lent::any(self.room, r);
        let number = self.sheet.lent().ask(state.readable(), answer.places());
        tally.refusal(number);
        let right = answered(number, &answer, rules::ask(reading, self));
        tally.answer("asking", right && state.is_untouched());
    }

    /// The state after the commit, where it was not refused.
    pub fn commit(
        &self,
        reading: Result<&Reading, u32>,
        tally: &mut Tally,
        r: &mut Random,
    ) -> Option<Read> {
        let mut state = LentState::holding(&self.state, r);
        let number = state.commit(&self.sheet, self.ticket);
        tally.refusal(number);
        let right = rules::commit(reading, self);
        let after = right.as_ref().map(State::from).map_err(|number| *number);
        tally.answer("committing", state.answered(number, after.as_ref()));
        right.ok()
    }

    /// The state after the block, where it was not refused.
    pub fn block(
        &self,
        reading: Result<&Reading, u32>,
        tally: &mut Tally,
        r: &mut Random,
    ) -> Option<Read> {
        let mut state = LentState::holding(&self.state, r);
        let mut output = Lent::any(self.places, r);
        let mut answer = Lent::any(self.room, r);
        let number = self.sheet.lent().block(
            state.writable(),
            &self.values,
            output.places(),
            answer.places(),
        );
        tally.refusal(number);
        match rules::block(reading, self) {
            Err(right) => {
                let untouched =
                    state.is_untouched() && output.is_untouched() && answer.is_untouched();
                tally.answer("a refused block", number == right && untouched);
                None
            }
            Ok(block) => {
                let right = state.holds(&State::from(&block.state))
                    && output.begins_with(&block.output)
                    && answer.begins_with(&rules::block_answer(&block));
                tally.block(self.values.len() / 2, &block);
                tally.answer("a block", number == 0 && right);
                Some(block.state)
            }
        }
    }

    // ---- faults

    /// One fault or several, so that which of them is told can be seen.
    pub fn spoil(&mut self, fields: &Fields, state: &Read, r: &mut Random) {
        for _ in 0..1 + r.below(3) {
            match r.below(16) {
                0 => self.spoil_length(r),
                1 => self.spoil_field(r),
                2 => self.sheet = Sheet::from(&generate::spoiled(r, fields.clone())),
                3 => self.spoil_bank(r),
                4 => self.spoil_slice(r),
                5 => self.spoil_place(r),
                6 => {
                    let mut state = state.clone();
                    states::spoil(r, fields, &mut state);
                    self.state = State::from(&state);
                }
                7 => self.values.push(r.next() as i16),
                8 => {
                    let less = r.below(rules::enough(&self.values) as u64 + 1) as usize;
                    self.places = r.pick(&[less, 0, 1, 19, 20]);
                }
                9 => self.room = r.below(BLOCK as u64) as usize,
                10 => self.period = r.pick(&[fields.period_min - 1, fields.period_max + 1]),
                11 => self.spoil_count(r),
                12 => self.spoil_held(&states::any_held(r, fields, state)),
                13 => self.ticket = states::any_ticket(r, state),
                _ => self.other_sheet(fields, state, r),
            }
        }
    }

    /// A sheet with places too few or too many.
    fn spoil_length(&mut self, r: &mut Random) {
        let long = r.pick(&[0, 1, SHEET - 1, SHEET + 1, 2 * SHEET]);
        self.sheet.fields.resize(long, 0);
    }

    /// A field outside its type.
    fn spoil_field(&mut self, r: &mut Random) {
        let at = r.below(FIELDS.len() as u64) as usize;
        let (low, high) = FIELDS[at];
        if let Some(field) = self.sheet.fields.get_mut(at) {
            *field = r.pick(&[low - 1, high + 1, i64::MIN, i64::MAX]);
        }
    }

    /// A bank with numbers too few or too many.
    fn spoil_bank(&mut self, r: &mut Random) {
        let bank = &mut self.sheet.banks[r.below(3) as usize];
        let long = bank.len();
        bank.resize(r.pick(&[0, long.saturating_sub(1), long + 1, long / 2]), 0);
    }

    /// A slice of the state with numbers too few or too many.
    fn spoil_slice(&mut self, r: &mut Random) {
        let mut long = |long: usize| r.pick(&[0, 1, long - 1, long + 1, 2 * long]);
        let (places, line, errors) = (long(STATE), long(LINE), long(ERRORS));
        match r.below(4) {
            0 => self.state.places.resize(places, 0),
            1 => self.state.line.resize(line, 0),
            2 => self.state.errors.resize(errors, 0),
            _ => {
                self.state.places.resize(places, 0);
                self.state.line.resize(line, 0);
                self.state.errors.resize(errors, 0);
            }
        }
    }

    /// A place of the state outside the type of its field.
    fn spoil_place(&mut self, r: &mut Random) {
        let held = STATE_SHEET + r.below(SHEET as u64) as usize;
        let at = r.pick(&[0, 3, 4, 5, 6, 7, 8, 9, held, held, held, held]);
        let (low, high) = match at {
            0 | 3 | 4 => (0, u32::MAX.into()),
            1..STATE_SHEET => (0, i64::MAX),
            _ => FIELDS[at - STATE_SHEET],
        };
        let below = [low - 1, i64::MIN];
        // no number is above the largest count
        let above = match high {
            i64::MAX => below,
            _ => [high + 1, i64::MAX],
        };
        let outside = [below, above];
        if let Some(place) = self.state.places.get_mut(at) {
            *place = r.pick(outside.as_flattened());
        }
    }

    /// Another held sheet.
    fn spoil_held(&mut self, held: &[i64]) {
        if let Some(places) = self.state.places.get_mut(STATE_SHEET..STATE) {
            places.copy_from_slice(held);
        }
    }

    /// Another sheet than the one that the state holds, as a retune has it.
    fn other_sheet(&mut self, fields: &Fields, state: &Read, r: &mut Random) {
        let change = r.pick(&Change::ALL);
        let other = At::first(fields, state).changed(change, r);
        self.sheet = Sheet::from(&other);
    }

    /// As many samples as can be counted, or almost as many, before the block: before all its pairs, or before those that it has
    /// places for.
    fn spoil_count(&mut self, r: &mut Random) {
        let pairs = self.values.len() / 2;
        let more = r.pick(&[pairs, pairs.min(self.places / SYMBOL)]) as i64;
        if let Some(samples) = self.state.places.get_mut(9) {
            *samples = i64::MAX - (more + r.between(-2, 2)).max(0);
        }
    }
}

/// Places that are enough for any answer.
pub fn any_room(r: &mut Random) -> usize {
    BLOCK + r.below(5) as usize
}
