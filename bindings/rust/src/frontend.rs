//! The front end and its symbols: the archive keeps nothing between calls, so the state, and the sheet with its banks that it runs under, are kept here.

use crate::archive::{
    self, BLOCK, BLOCK_CLIPS, BLOCK_COUNT, BLOCK_TAKEN, ERRORS, LINE, SHEET, STATE, STATE_SAMPLES,
    STATE_T, SYMBOL, Sheet, StateMut,
};
use crate::{Params, Refusal};

/// Pairs that the archive is lent places for at once, and so the most that it takes at once. How samples are cut changes no symbol; this bounds the memory
/// for a long block.
const PAIRS: usize = 4096;

/// A symbol, and what it was made of. A pair is I, then Q.
#[derive(Debug, Clone, Copy, PartialEq, Eq)]
pub struct Symbol {
    /// The sample on which it fell, counted from 0 at the start.
    pub sample: u64,
    /// In which sixty-fourth of it: the row of the banks.
    pub phase: u8,
    /// What bank h gives.
    pub y: [i16; 2],
    /// What bank g gives.
    pub dy: [i16; 2],
    /// What bank k gives.
    pub yk: [i16; 2],
    /// The gain in force, 1024 for a gain of 1.
    pub gain: u16,
    /// The period in force, 2^24 to the sample. It has the correction for one noisy error in it; what says how fast the sender is, is the mean over
    /// thousands of symbols, see [`Params::offset`].
    pub period: u32,
    /// `y` times the gain.
    pub z: [i16; 2],
    /// `dy` times the gain.
    pub dz: [i16; 2],
    /// `yk` times the gain.
    pub zk: [i16; 2],
    /// The output, [`Params::bits`] wide.
    pub q: [i8; 2],
    /// Its timing error, which acts [`Params::delay`] symbols later.
    pub e: i32,
    /// Its gain error, likewise.
    pub err: i32,
}

impl Symbol {
    /// Its 20 numbers in the order of the fields above, as a line of a symbol list has them.
    pub fn places(&self) -> [i64; SYMBOL] {
        let [y, dy, yk, z, dz, zk] =
            [self.y, self.dy, self.yk, self.z, self.dz, self.zk].map(|pair| pair.map(i64::from));
        let q = self.q.map(i64::from);
        [
            // A count of samples is below 2^63.
            self.sample as i64,
            self.phase.into(),
            y[0],
            y[1],
            dy[0],
            dy[1],
            yk[0],
            yk[1],
            self.gain.into(),
            self.period.into(),
            z[0],
            z[1],
            dz[0],
            dz[1],
            zk[0],
            zk[1],
            q[0],
            q[1],
            self.e.into(),
            self.err.into(),
        ]
    }

    /// The symbol that the archive wrote. Each number is one of its field's type: they were clamped or reduced to it.
    fn of(places: &[i64; SYMBOL]) -> Self {
        let pair = |n: usize| [places[n] as i16, places[n + 1] as i16];
        Self {
            sample: places[0] as u64,
            phase: places[1] as u8,
            y: pair(2),
            dy: pair(4),
            yk: pair(6),
            gain: places[8] as u16,
            period: places[9] as u32,
            z: pair(10),
            dz: pair(12),
            zk: pair(14),
            q: [places[16] as i8, places[17] as i8],
            e: places[18] as i32,
            err: places[19] as i32,
        }
    }
}

/// What a block says of itself.
#[derive(Debug, Clone, Copy, Default, PartialEq, Eq)]
pub struct Block {
    /// How many symbols it has.
    pub symbols: usize,
    /// How many numbers of its symbols were clipped: `y`, `dy`, `yk`, `z`, `dz` and `zk`, I and Q each, where 16 bits were too few for what was computed. So it
    /// is 12 a symbol at most, and 0 where nothing was lost. A number that came out as 32767 or −32768 without having been cut does not count, and neither does
    /// any other clamp.
    ///
    /// Clips say, as a rule, that the gain of the dish is too high. docs/GUIDE.md says how to set it by them.
    pub clips: u64,
    /// How many samples it took.
    pub taken: usize,
}

impl Block {
    /// This block and the one behind it as one.
    fn with(self, next: Self) -> Self {
        Self {
            symbols: self.symbols + next.symbols,
            clips: self.clips + next.clips,
            taken: self.taken + next.taken,
        }
    }
}

/// A state as it is kept between calls.
#[derive(Debug, Clone, Copy, PartialEq)]
struct State {
    places: [i64; STATE],
    line: [i32; LINE],
    errors: [i32; ERRORS],
}

impl State {
    fn lent(&self) -> archive::State<'_> {
        archive::State {
            places: &self.places,
            line: &self.line,
            errors: &self.errors,
        }
    }

    fn lent_mut(&mut self) -> StateMut<'_> {
        StateMut {
            places: &mut self.places,
            line: &mut self.line,
            errors: &mut self.errors,
        }
    }
}

/// The front end: takes samples and gives symbols, from a fresh start on. [`retune`](Self::retune) gives it other parameters while it runs.
#[derive(Debug, Clone)]
pub struct Frontend {
    /// Those that the state holds, with their banks.
    params: Params,
    /// The fields of `params` as places.
    sheet: [i64; SHEET],
    state: State,
    /// Room for the symbols of a block, kept from call to call.
    out: Vec<i64>,
}

impl Frontend {
    /// A front end at its start.
    ///
    /// # Errors
    ///
    /// 1 to 8, then 29, as [`Params::validate`] has them.
    pub fn new(params: Params) -> Result<Self, Refusal> {
        let sheet = params.places();
        let mut state = State {
            places: [0; STATE],
            line: [0; LINE],
            errors: [0; ERRORS],
        };
        Refusal::check(params.sheet(&sheet).start(state.lent_mut()))?;
        Ok(Self {
            params,
            sheet,
            state,
            out: Vec::new(),
        })
    }

    /// Takes a sample, I then Q, and gives the symbol that falls on it, if one does.
    ///
    /// Every call judges the sheet again, so [`process`](Self::process) costs much less a sample. It also says how much was clipped, which this does not.
    ///
    /// # Errors
    ///
    /// 12 where it would be the 2^63-th sample; nothing is changed then.
    pub fn push(&mut self, sample: [i16; 2]) -> Result<Option<Symbol>, Refusal> {
        let mut places = [0; SYMBOL];
        let sheet = self.params.sheet(&self.sheet);
        let block = offer(sheet, &mut self.state, &[sample], &mut places)?;
        assert_eq!(block.taken, 1, "there was room for its symbol");
        Ok((block.symbols == 1).then(|| Symbol::of(&places)))
    }

    /// Takes a block of samples, all of them, and appends its symbols to `out`. Says how many these are, how many of their numbers were clipped, and that all
    /// samples were taken.
    ///
    /// How samples are cut into blocks changes no symbol, and not the clips in all. Room for a block is kept from call to call, so a caller that clears `out`
    /// in between has nothing allocated once the largest block has passed.
    ///
    /// This sets the gain of a dish, in steps, by what is clipped:
    ///
    /// ```
    /// # use huntelm::{Frontend, Refusal};
    /// # struct Dish { gain: i16 }
    /// # impl Dish {
    /// #     fn samples(&self) -> Vec<[i16; 2]> { vec![[1000 * self.gain, -700 * self.gain]; 64] }
    /// #     fn lower_gain(&mut self) { self.gain -= 1; }
    /// # }
    /// fn set_gain(dish: &mut Dish, front: &mut Frontend) -> Result<(), Refusal> {
    ///     let mut symbols = Vec::new();
    ///     loop {
    ///         // The first block after a change still has samples from before it, so the second counts.
    ///         front.process(&dish.samples(), &mut symbols)?;
    ///         let block = front.process(&dish.samples(), &mut symbols)?;
    ///         symbols.clear();
    ///         if block.clips == 0 {
    ///             return Ok(());
    ///         }
    ///         dish.lower_gain();
    ///     }
    /// }
    /// # let k = [65536, 0, 0, 0].repeat(64);
    /// # let places = [4, 0, 33554432, 32883343, 34225520, 8, 0, 0, 0, 0, 335544, 262144, 16384, 4, 8, 6, 12, 24];
    /// # let params = huntelm::Params::from_places(&places, vec![0; 256], vec![0; 256], k)?;
    /// # let (mut dish, mut front) = (Dish { gain: 20 }, Frontend::new(params)?);
    /// # set_gain(&mut dish, &mut front)?;
    /// # assert_eq!(dish.gain, 8);
    /// # Ok::<(), Refusal>(())
    /// ```
    ///
    /// # Errors
    ///
    /// 12 where there would be more than 2^63 − 1 samples in all; the front end and `out` are then as they were.
    pub fn process(
        &mut self,
        samples: &[[i16; 2]],
        out: &mut Vec<Symbol>,
    ) -> Result<Block, Refusal> {
        let (state, before) = (self.state, out.len());
        let mut whole = Block::default();
        while whole.taken < samples.len() {
            match self.process_part(&samples[whole.taken..], out) {
                Ok(part) => whole = whole.with(part),
                Err(refusal) => {
                    self.state = state;
                    out.truncate(before);
                    return Err(refusal);
                }
            }
        }
        Ok(whole)
    }

    /// Takes the first of the samples, as many as there is room for, appends their symbols, and says what the archive says of them.
    fn process_part(
        &mut self,
        samples: &[[i16; 2]],
        out: &mut Vec<Symbol>,
    ) -> Result<Block, Refusal> {
        let room = SYMBOL * samples.len().min(PAIRS);
        if self.out.len() < room {
            self.out.resize(room, 0);
        }
        let sheet = self.params.sheet(&self.sheet);
        let block = offer(sheet, &mut self.state, samples, &mut self.out)?;
        let (places, _) = self.out[..SYMBOL * block.symbols].as_chunks();
        out.extend(places.iter().map(Symbol::of));
        Ok(block)
    }

    /// Asks whether other parameters may be put into the front end as it is now. The answer is the ticket for [`retune`](Self::retune): how many symbols there
    /// are so far, and no more than that number. Nothing changes, and the ticket holds until the next symbol is made.
    ///
    /// # Errors
    ///
    /// In this order; `params` may differ from the present ones in everything but `delay` and `taps`:
    ///
    /// - 1 to 8, then 29, as [`Params::validate`] has them;
    /// - 29 for another delay than the present one;
    /// - 9 where the period or the integrator lies outside the bounds that `params` give them (`period_min`, `period_max`, `integrator_max`): ask again when
    ///   the loop has moved, or with wider bounds;
    /// - 27 for other taps than the present ones. Fewer taps are 9 where the newest sample of the line stands behind them, and may stay so however long one
    ///   waits: compare `taps` before you ask.
    pub fn ask(&self, params: &Params) -> Result<u64, Refusal> {
        let mut ticket = [0];
        let sheet = params.places();
        Refusal::check(params.sheet(&sheet).ask(self.state.lent(), &mut ticket))?;
        // A count of symbols is below 2^63.
        Ok(ticket[0] as u64)
    }

    /// Puts other parameters, with their banks, into the running front end, so that the carrier keeps its lock under new loop gains. They act from the next
    /// sample on. Nothing else changes: registers, counts, line and waiting errors stay. The period stays too, where the new nominal period is another one,
    /// and moves when the next errors are applied. So a retune right behind a start is another thing than a start with these parameters.
    ///
    /// Ask before a block, and retune before it too:
    ///
    /// ```
    /// # use huntelm::{Frontend, Params, Refusal};
    /// # let rows = |first: i32| [first, 0, 0, 0].repeat(64);
    /// # let places = [4, 0, 33554432, 32883343, 34225520, 8, 0, 0, 0, 0, 335544, 262144, 16384, 4, 8, 6, 12, 1];
    /// # let params = Params::from_places(&places, rows(16384), rows(8192), rows(16384))?;
    /// # let pairs = [[1000, -1000]; 200];
    /// let mut front = Frontend::new(params)?;
    /// let mut symbols = Vec::new();
    /// front.process(&pairs[..100], &mut symbols)?;
    ///
    /// let mut wanted = Some(Params { kp: 3, ..front.params().clone() });
    /// for block in pairs[100..].chunks(50) {
    ///     if let Some(params) = wanted.take() {
    ///         match front.ask(&params) {
    ///             Ok(ticket) => front.retune(ticket, params)?,
    ///             Err(refusal) => {
    ///                 println!("it goes on as it was: {refusal}");
    ///                 // The loop is outside the new bounds: ask again before the next block.
    ///                 if refusal == Refusal::State {
    ///                     wanted = Some(params);
    ///                 }
    ///             }
    ///         }
    ///     }
    ///     front.process(block, &mut symbols)?;
    /// }
    /// assert_eq!(front.params().kp, 3);
    /// # assert_eq!((symbols[49].period, symbols[50].sample), (33554432, 100));
    /// # assert_eq!(symbols[50].period, 33554432 + 3 * symbols[49].e as u32);
    /// # assert!(symbols[49].e > 1000);
    /// # Ok::<(), Refusal>(())
    /// ```
    ///
    /// The parameters are handed over, as to [`new`](Self::new). Where the retune is refused they are dropped, and the front end goes on with its own. After
    /// [`ask`](Self::ask) that cannot happen before the next symbol is made; whoever wants to keep them hands over a copy.
    ///
    /// A list of symbols with a retune in it is a list of its own. To make it again one needs the parameters with their banks, and how many
    /// [`samples`](Self::samples) came before them.
    ///
    /// # Errors
    ///
    /// What [`ask`](Self::ask) refuses, in its order; then 28 where `ticket` is not the number of symbols so far. The front end, its parameters and its banks
    /// are then as they were.
    pub fn retune(&mut self, ticket: u64, params: Params) -> Result<(), Refusal> {
        let sheet = params.places();
        let State {
            places,
            line,
            errors,
        } = &mut self.state;
        Refusal::check(params.sheet(&sheet).commit(ticket, places, line, errors))?;
        (self.params, self.sheet) = (params, sheet);
        Ok(())
    }

    /// The parameters that it runs under: those of the start, or of the last retune.
    pub fn params(&self) -> &Params {
        &self.params
    }

    /// The period of the last symbol, 2^24 to the sample; no measure of a clock, see [`Params::offset`]. A retune leaves it.
    pub fn period(&self) -> u32 {
        self.read()[0] as u32
    }

    /// The gain, 1024 for a gain of 1.
    pub fn gain(&self) -> u16 {
        self.read()[1] as u16
    }

    /// Symbols so far.
    pub fn symbols(&self) -> u64 {
        self.read()[2] as u64
    }

    /// Samples so far.
    pub fn samples(&self) -> u64 {
        self.state.places[STATE_SAMPLES] as u64
    }

    /// How far behind the next sample the next symbol lies, 2^24 to the sample. It falls on that sample where this is less than 2^24.
    pub fn time(&self) -> u32 {
        self.state.places[STATE_T] as u32
    }

    fn read(&self) -> [i64; 3] {
        let mut answer = [0; 3];
        Refusal::check(
            self.params
                .sheet(&self.sheet)
                .read(self.state.lent(), &mut answer),
        )
        .expect("a state of a run is never refused under the sheet that it holds");
        answer
    }
}

/// Offers samples to the archive. It takes as many of the first as `out` has room for a symbol each, and at least one where there is room for one.
fn offer(
    sheet: Sheet,
    state: &mut State,
    samples: &[[i16; 2]],
    out: &mut [i64],
) -> Result<Block, Refusal> {
    let mut answer = [0; BLOCK];
    Refusal::check(sheet.block(state.lent_mut(), samples.as_flattened(), out, &mut answer))?;
    // Symbols and samples are no more than the pairs of a slice, and clips no more than 12 times as many.
    Ok(Block {
        symbols: answer[BLOCK_COUNT] as usize,
        clips: answer[BLOCK_CLIPS] as u64,
        taken: answer[BLOCK_TAKEN] as usize,
    })
}

#[cfg(test)]
mod tests {
    use super::*;
    use crate::archive::STATE_SHEET;

    fn params() -> Params {
        let h = [16384, 0, 0, 0].repeat(64);
        let fields = [
            4, 0, 33554432, 32883343, 34225520, 8, 0, 0, 0, 0, 335544, 262144, 16384, 4, 8, 6, 12,
            24,
        ];
        Params::from_places(&fields, h.clone(), vec![0; 256], h).unwrap()
    }

    /// A front end next to the last sample that can be counted.
    fn late(left: i64) -> Frontend {
        let mut front = Frontend::new(params()).unwrap();
        front.state.places[STATE_SAMPLES] = i64::MAX - left;
        front
    }

    #[test]
    fn a_sample_too_many_is_refused() {
        let mut front = late(1);
        assert!(front.push([5, 6]).unwrap().is_some());
        let state = front.state;
        assert_eq!(front.push([5, 6]), Err(Refusal::TooManySamples));
        assert_eq!(front.state, state);
    }

    #[test]
    fn a_refused_block_changes_nothing() {
        let samples = vec![[100, -100]; 3 * PAIRS];
        let mut symbols = Vec::new();
        let mut front = Frontend::new(params()).unwrap();
        front.process(&samples[..9], &mut symbols).unwrap();
        let kept = symbols.clone();
        for left in [0, 1, PAIRS, 2 * PAIRS + 1, 3 * PAIRS - 1] {
            let mut front = late(left as i64);
            let state = front.state;
            assert_eq!(
                front.process(&samples, &mut symbols),
                Err(Refusal::TooManySamples)
            );
            assert_eq!((front.state, &symbols), (state, &kept));
        }
        let mut front = late(3 * PAIRS as i64);
        let whole = Block {
            symbols: 3 * PAIRS / 2,
            clips: 0,
            taken: 3 * PAIRS,
        };
        assert_eq!(front.process(&samples, &mut symbols), Ok(whole));
        assert_eq!(front.samples(), i64::MAX as u64);
        assert_eq!(front.process(&[], &mut symbols), Ok(Block::default()));
    }

    /// A block that the archive itself refuses leaves alone all that was lent to it.
    #[test]
    fn a_refused_call_touches_nothing() {
        let front = Frontend::new(params()).unwrap();
        let sheet = front.params.sheet(&front.sheet);
        let whole = [STATE, LINE, ERRORS];
        for (lengths, values, places, room, refusal) in [
            ([STATE - 1, LINE, ERRORS], 2, 20, BLOCK, Refusal::State),
            ([STATE, LINE - 1, ERRORS], 2, 20, BLOCK, Refusal::State),
            ([STATE, LINE, ERRORS - 1], 2, 20, BLOCK, Refusal::State),
            (whole, 3, 60, BLOCK, Refusal::OddInput),
            (whole, 4, 19, BLOCK, Refusal::ShortOutput),
            (whole, 4, 40, BLOCK - 1, Refusal::ShortOutput),
        ] {
            let mut state = front.state;
            let mut out = vec![-3; places];
            let mut answer = vec![-5; room];
            let lent = StateMut {
                places: &mut state.places[..lengths[0]],
                line: &mut state.line[..lengths[1]],
                errors: &mut state.errors[..lengths[2]],
            };
            let number = sheet.block(lent, &vec![9; values], &mut out, &mut answer);
            assert_eq!(number, refusal.number());
            assert_eq!((state, out), (front.state, vec![-3; places]));
            assert_eq!(answer, vec![-5; room]);
        }
    }

    /// The place of a state's symbols so far.
    const STATE_SYMBOLS: usize = 5;

    /// By what a retune with this ticket and this change is refused.
    type Refused = (Refusal, u64, fn(&mut Params));

    /// A refused retune leaves the front end as it was, the state whole, and an accepted one puts in the new sheet and nothing else. The front end has made
    /// more symbols than 32 bits count, so that a ticket has to come and go whole.
    #[test]
    fn a_retune_changes_the_held_sheet_alone() {
        let mut front = Frontend::new(params()).unwrap();
        front.process(&[[100, -200]; 99], &mut Vec::new()).unwrap();
        front.state.places[STATE_SYMBOLS] += 1 << 32;
        front.state.places[STATE_SAMPLES] += 1 << 33;
        let (before, ticket) = (front.clone(), front.symbols());
        let wanted = Params {
            period_nominal: 33_000_000,
            kp: 77,
            k: vec![3; 256],
            ..params()
        };
        let refused: [Refused; 5] = [
            (Refusal::Range, ticket, |p| p.bits = 9),
            (Refusal::Delay, ticket, |p| p.delay = 23),
            (Refusal::State, ticket, |p| p.period_max = 33_000_000),
            (Refusal::Ticket, ticket - 1, |_| ()),
            (Refusal::Ticket, ticket - (1 << 32), |_| ()),
        ];
        for (refusal, ticket, change) in refused {
            let mut wanted = wanted.clone();
            change(&mut wanted);
            assert_eq!(front.retune(ticket, wanted), Err(refusal));
            assert_eq!((front.state, front.sheet), (before.state, before.sheet));
            assert_eq!(front.params, before.params);
        }
        assert_eq!(front.ask(&wanted), Ok(ticket));
        assert_eq!(front.state, before.state);
        assert_eq!(front.retune(ticket, wanted.clone()), Ok(()));
        let mut right = before.state;
        right.places[STATE_SHEET..].copy_from_slice(&wanted.places());
        assert_eq!((front.state, front.sheet), (right, wanted.places()));
        assert_eq!(front.params, wanted);
    }

    /// 18 and 19 are this crate's own tests where places become fields; they have to be the archive's.
    #[test]
    fn places_are_refused_as_the_archive_refuses_them() {
        let p = params();
        let good = p.places();
        let refused = |places: &[i64]| {
            let here = Params::from_places(places, p.h.clone(), p.g.clone(), p.k.clone()).err();
            let there = Refusal::check(p.sheet(places).judge()).err();
            let of_places = |r: &Refusal| matches!(r, Refusal::PlaceCount | Refusal::PlaceType);
            assert_eq!(here, there.filter(of_places), "{places:?}");
            here
        };
        assert_eq!(refused(&good), None);
        for length in [0, 1, 17] {
            assert_eq!(refused(&good[..length]), Some(Refusal::PlaceCount));
        }
        assert_eq!(refused(&[4; 19]), Some(Refusal::PlaceCount));
        let ends = [
            0,
            u8::MAX.into(),
            u32::MAX.into(),
            i16::MIN.into(),
            i16::MAX.into(),
            i32::MIN.into(),
            i32::MAX.into(),
            i64::MIN,
            i64::MAX,
        ];
        let mut seen = [0; 2];
        for place in 0..SHEET {
            for number in ends
                .iter()
                .flat_map(|n: &i64| [n.saturating_sub(1), *n, n.saturating_add(1)])
            {
                let mut places = good;
                places[place] = number;
                seen[usize::from(refused(&places).is_some())] += 1;
            }
        }
        assert!(seen[0] > 100 && seen[1] > 100, "{seen:?}");
    }
}
