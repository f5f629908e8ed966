//! What a call of the archive is to answer, whatever it is lent: the reading of docs/RULES.md, behind the archive's own rules for places
//! (RULES 8). A sheet that cannot be read is 18 or 19, then come 1 to 8 and 29; slices that are those of no state are 9.

use crate::calls::Call;
use archive_calls::{Sheet, State};
use huntelm::archive::{
    BLOCK, BLOCK_CLIPS, BLOCK_COUNT, BLOCK_TAKEN, ERRORS, LINE, STATE, STATE_SHEET, SYMBOL,
};
use oracle::reading::{Block, Reading};
use oracle::sheet::{FIELDS, Sheet as Fields};
use oracle::state::State as Read;

/// The number of a refusal.
type Number = u32;

/// The sheet that a call is lent, where it is an accepted one.
pub fn accepted(sheet: &Sheet) -> Result<Fields, Number> {
    let fields = &sheet.fields;
    if fields.len() != FIELDS.len() {
        return Err(18);
    }
    let within = |(v, (low, high)): (&i64, (i64, i64))| (low..=high).contains(v);
    if !fields.iter().zip(FIELDS).all(within) {
        return Err(19);
    }
    let mut read = Fields::of(fields);
    // isdb-rs takes the taps from a bank and reports its length row by row; the rules (RULES 1.4) have both before all else
    if !read.taps.is_multiple_of(2) || !(4..=64).contains(&read.taps) {
        return Err(1);
    }
    let long = 64 * read.taps as usize;
    if sheet.banks.iter().any(|bank| bank.len() != long) {
        return Err(2);
    }
    read.banks = sheet.banks.clone();
    match read.judge().first() {
        Some(number) => Err(*number as Number),
        None => Ok(read),
    }
}

/// The state that three slices say, where they are as long as a state's and each place is within the type of its field.
pub fn state_of(state: &State) -> Option<Read> {
    const U32: (i64, i64) = (0, u32::MAX as i64);
    const I64: (i64, i64) = (i64::MIN, i64::MAX);
    const COUNT: (i64, i64) = (0, i64::MAX);
    let places = &state.places;
    if [places.len(), state.line.len(), state.errors.len()] != [STATE, LINE, ERRORS] {
        return None;
    }
    let own = [U32, I64, I64, U32, U32, COUNT, COUNT, COUNT, COUNT, COUNT];
    let within = |(v, (low, high)): (&i64, (i64, i64))| (low..=high).contains(v);
    if !places.iter().zip(own.into_iter().chain(FIELDS)).all(within) {
        return None;
    }
    let place = |n: usize| i128::from(places[n]);
    let pair = |numbers: &[i32], n: usize| [2 * n, 2 * n + 1].map(|n| numbers[n].into());
    Some(Read {
        nco: place(0),
        t_acc: place(1),
        v: place(2),
        period: place(3),
        gain_acc: place(4),
        symbols: place(5),
        head: place(6),
        oldest: place(7),
        waiting: place(8),
        samples: place(9),
        held: std::array::from_fn(|n| places[STATE_SHEET + n]),
        line: std::array::from_fn(|n| pair(&state.line, n)),
        errors: std::array::from_fn(|n| pair(&state.errors, n)),
    })
}

/// The fresh state.
pub fn start(reading: Result<&Reading, Number>, call: &Call) -> Result<State, Number> {
    let fresh = State::from(&reading?.start());
    let state = &call.state;
    match [state.places.len(), state.line.len(), state.errors.len()] {
        [STATE, LINE, ERRORS] => Ok(fresh),
        _ => Err(9),
    }
}

/// What a block leaves. That its answer has too few places is the last that is looked at.
pub fn block(reading: Result<&Reading, Number>, call: &Call) -> Result<Block, Number> {
    let reading = reading?;
    let state = state_of(&call.state).ok_or(9u32)?;
    let block = reading.block(&state, &call.values, call.places);
    match block.refusal.first() {
        Some(number) => Err(*number as Number),
        None if call.room < BLOCK => Err(11),
        None => Ok(block),
    }
}

/// The places that a block writes of its answer: how many symbols it made, how many pairs it took, and the clips of the symbols. Those behind them stay.
pub fn block_answer(block: &Block) -> [i64; 3] {
    let mut answer = [0; 3];
    answer[BLOCK_COUNT] = block.count() as i64;
    answer[BLOCK_TAKEN] = block.taken as i64;
    answer[BLOCK_CLIPS] = block.clips() as i64;
    answer
}

/// Period, gain and symbols.
pub fn read(reading: Result<&Reading, Number>, call: &Call) -> Result<[i64; 3], Number> {
    let reading = reading?;
    let state = state_of(&call.state).ok_or(9u32)?;
    let read = reading.read(&state);
    match read.refusal.first() {
        Some(number) => Err(*number as Number),
        None if call.room < 3 => Err(11),
        None => Ok(read.numbers),
    }
}

/// The ticket. What slices that are no state are refused by comes before all that asking refuses of a state.
pub fn ask(reading: Result<&Reading, Number>, call: &Call) -> Result<[i64; 1], Number> {
    let reading = reading?;
    let state = state_of(&call.state).ok_or(9u32)?;
    let asked = reading.ask(&state);
    match asked.refusal.first() {
        Some(number) => Err(*number as Number),
        None if call.room < 1 => Err(11),
        None => Ok([asked.ticket as i64]),
    }
}

/// The state with the sheet in it.
pub fn commit(reading: Result<&Reading, Number>, call: &Call) -> Result<Read, Number> {
    let reading = reading?;
    let state = state_of(&call.state).ok_or(9u32)?;
    let committed = reading.commit(&state, call.ticket);
    match committed.refusal.first() {
        Some(number) => Err(*number as Number),
        None => Ok(committed.state),
    }
}

/// The offset of a period.
pub fn offset(reading: Result<&Reading, Number>, call: &Call) -> Result<[i64; 1], Number> {
    match reading?.offset(call.period) {
        (_, 0) if call.room < 1 => Err(11),
        (parts, 0) => Ok([parts]),
        (_, number) => Err(number as Number),
    }
}

/// Places that are enough for the symbols of these values.
pub fn enough(values: &[i16]) -> usize {
    SYMBOL * (values.len() / 2)
}
