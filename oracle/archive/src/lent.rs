//! Places that are lent to a call to be written, with others before and behind them that are not lent. What a call may not touch is looked at
//! after it.

use archive_calls::{Sheet, State};
use huntelm::archive;
use oracle::random::Random;

/// Places to each side of those that are lent.
const MARGIN: usize = 64;

/// What a place can hold.
pub trait Place: Copy + PartialEq {
    /// The number that has the lowest bits of this one.
    fn of(bits: u64) -> Self;
}

impl Place for i64 {
    fn of(bits: u64) -> Self {
        bits as Self
    }
}

impl Place for i32 {
    fn of(bits: u64) -> Self {
        bits as Self
    }
}

impl Place for i16 {
    fn of(bits: u64) -> Self {
        bits as Self
    }
}

pub struct Lent<T> {
    all: Vec<T>,
    /// What all of them held before the call.
    before: Vec<T>,
}

impl<T: Place> Lent<T> {
    /// So many places with numbers that no call is likely to write, and others each time.
    pub fn any(long: usize, r: &mut Random) -> Self {
        let (first, step) = (r.next(), r.next() | 1);
        let number = |n: u64| T::of(first.wrapping_add(step.wrapping_mul(n)));
        let all: Vec<T> = (0..(long + 2 * MARGIN) as u64).map(number).collect();
        Self {
            before: all.clone(),
            all,
        }
    }

    /// Places that hold these numbers.
    pub fn holding(numbers: &[T], r: &mut Random) -> Self {
        let mut lent = Self::any(numbers.len(), r);
        lent.places().copy_from_slice(numbers);
        lent.keep();
        lent
    }

    /// What is lent.
    pub fn places(&mut self) -> &mut [T] {
        let end = self.all.len() - MARGIN;
        &mut self.all[MARGIN..end]
    }

    pub fn numbers(&self) -> &[T] {
        &self.all[MARGIN..self.all.len() - MARGIN]
    }

    /// What stands in the places now is what stands in them before the next call.
    pub fn keep(&mut self) {
        self.before.copy_from_slice(&self.all);
    }

    /// Whether these numbers stand in the first places, and everything else is as it was.
    pub fn begins_with(&self, numbers: &[T]) -> bool {
        let end = MARGIN + numbers.len();
        self.all[..MARGIN] == self.before[..MARGIN]
            && self.all[MARGIN..end] == *numbers
            && self.all[end..] == self.before[end..]
    }

    /// Whether everything is as it was.
    pub fn is_untouched(&self) -> bool {
        self.all == self.before
    }
}

/// The three slices of a state.
pub struct LentState {
    pub places: Lent<i64>,
    pub line: Lent<i32>,
    pub errors: Lent<i32>,
}

impl LentState {
    /// Slices as long as these, with other numbers.
    pub fn any(like: &State, r: &mut Random) -> Self {
        Self {
            places: Lent::any(like.places.len(), r),
            line: Lent::any(like.line.len(), r),
            errors: Lent::any(like.errors.len(), r),
        }
    }

    pub fn holding(state: &State, r: &mut Random) -> Self {
        Self {
            places: Lent::holding(&state.places, r),
            line: Lent::holding(&state.line, r),
            errors: Lent::holding(&state.errors, r),
        }
    }

    /// What is lent to be written.
    pub fn writable(&mut self) -> archive::StateMut<'_> {
        archive::StateMut {
            places: self.places.places(),
            line: self.line.places(),
            errors: self.errors.places(),
        }
    }

    /// What is lent to be read.
    pub fn readable(&self) -> archive::State<'_> {
        archive::State {
            places: self.places.numbers(),
            line: self.line.numbers(),
            errors: self.errors.numbers(),
        }
    }

    /// Commits a sheet: of the three slices only the first is lent to be written.
    pub fn commit(&mut self, sheet: &Sheet, ticket: u64) -> u32 {
        let (places, line, errors) = (&mut self.places, &self.line, &self.errors);
        let places = places.places();
        sheet
            .lent()
            .commit(ticket, places, line.numbers(), errors.numbers())
    }

    pub fn keep(&mut self) {
        self.places.keep();
        self.line.keep();
        self.errors.keep();
    }

    /// Whether it holds this state, and everything around the three slices is as it was.
    pub fn holds(&self, state: &State) -> bool {
        self.places.begins_with(&state.places)
            && self.line.begins_with(&state.line)
            && self.errors.begins_with(&state.errors)
    }

    pub fn is_untouched(&self) -> bool {
        self.places.is_untouched() && self.line.is_untouched() && self.errors.is_untouched()
    }

    /// Whether a call answered with this state, or with this refusal and nothing touched.
    pub fn answered(&self, number: u32, right: Result<&State, &u32>) -> bool {
        match right {
            Ok(state) => number == 0 && self.holds(state),
            Err(right) => number == *right && self.is_untouched(),
        }
    }
}

/// Whether a call answered with these numbers in its first places, or with this refusal and nothing touched.
pub fn answered<T: Place, N: AsRef<[T]>>(
    number: u32,
    places: &Lent<T>,
    right: Result<N, u32>,
) -> bool {
    match right {
        Ok(numbers) => number == 0 && places.begins_with(numbers.as_ref()),
        Err(right) => number == right && places.is_untouched(),
    }
}
