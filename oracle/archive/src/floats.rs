//! Float samples and designs through the archive, beside isdb-rs's `input_sample` and `Params::design`.

use crate::lent::{Lent, answered};
use crate::rules;
use crate::tally::Tally;
use archive_calls::{Design, Sheet};
use huntelm::archive::{self, SHEET};
use oracle::design::Answer;
use oracle::floats;
use oracle::generate;
use oracle::random::Random;
use oracle::sheet::{FIELDS, Sheet as Fields};

// ---- samples

/// Floats of any bits and such as stand out, in slices of all lengths, odd ones among them, for values that may be too few.
pub fn samples(tally: &mut Tally, r: &mut Random, outstanding: &[u32]) {
    let any = |r: &mut Random| match r.below(2) {
        0 => f32::from_bits(r.pick(outstanding)),
        _ => f32::from_bits(r.next() as u32),
    };
    let odd = u64::from(r.one_in(8));
    let size = r.pick(&[0, 1, 40, 1000]);
    let floats: Vec<f32> = (0..2 * r.below(size + 1) + odd).map(|_| any(r)).collect();
    let less = r.below(floats.len() as u64 + 1) as usize;
    let long = r.pick(&[0, 0, 0, 1, 45]) + if r.one_in(6) { less } else { floats.len() };
    let mut values = Lent::any(long, r);
    let number = archive::sample(&floats, values.places());
    tally.refusal(number);
    let right = match floats.len() {
        n if n % 2 != 0 => Err(10),
        n if long < n => Err(11),
        _ => Ok(taken(&floats)),
    };
    tally.answer("float samples", answered(number, &values, right));
}

/// What isdb-rs makes of them.
fn taken(floats: &[f32]) -> Vec<i16> {
    let pairs = floats.chunks(2);
    pairs.flat_map(|p| floats::sample_of(p[0], p[1])).collect()
}

// ---- designs

/// The types of a design's whole fields: taps, bits, block_log2, kp, kp_shift, ki, ki_shift, q_shift.
const TYPES: [(i64, i64); 8] = [
    FIELDS[0], FIELDS[14], FIELDS[16], FIELDS[6], FIELDS[7], FIELDS[8], FIELDS[9], FIELDS[15],
];

/// A design with the banks and gains of a sheet, one in three with faults, and now and then with places too few, too many or outside their types.
pub fn designs(tally: &mut Tally, r: &mut Random) {
    let mut sheet = generate::sheet("small", r).expect("a kind of sheet that there is");
    if r.one_in(3) {
        sheet = generate::spoiled(r, sheet);
    }
    let mut d = floats::design_for(r, &sheet);
    let answer = floats::answer(&mut d);
    let mut design = Design {
        rates: vec![
            d.sample_rate,
            d.symbol_rate,
            d.carrier_offset,
            d.trim,
            d.agc_rms,
        ],
        fields: [d.taps as i64, d.bits.into(), d.block_log2.into()]
            .into_iter()
            .chain(gains(&sheet))
            .collect(),
        banks: sheet.banks.clone(),
    };
    let right = match answer {
        Answer::Registers(p) => sheet_of(&floats::sheet_of(&p, &sheet)),
        Answer::Refused(number, _) => Err(number as u32),
        // isdb-rs has a refusal here that has no number, and nothing to compare with
        Answer::LoopGain => return,
    };
    let unread = if r.one_in(8) {
        spoil(&mut design, r)
    } else {
        None
    };
    let places = r.pick(&[SHEET, SHEET, SHEET, SHEET + 1, 40, SHEET - 1, 0]);
    let mut written = Lent::any(places, r);
    let number = design.lent().sheet(written.places());
    tally.refusal(number);
    let right = match (unread, right) {
        (Some(number), _) => Err(number),
        (None, Ok(_)) if places < SHEET => Err(11),
        (None, right) => right,
    };
    tally.answer("a design", answered(number, &written, right));
}

fn gains(sheet: &Fields) -> [i64; 5] {
    [
        sheet.kp.into(),
        sheet.kp_shift.into(),
        sheet.ki.into(),
        sheet.ki_shift.into(),
        sheet.q_shift.into(),
    ]
}

/// The fields of a sheet that is accepted.
fn sheet_of(sheet: &Fields) -> Result<Vec<i64>, u32> {
    rules::accepted(&Sheet::from(sheet)).map(|sheet| sheet.fields().to_vec())
}

/// Places too few or too many, or a field outside its type; and the number that refuses it.
fn spoil(design: &mut Design, r: &mut Random) -> Option<u32> {
    let at = r.below(8) as usize;
    let (low, high) = TYPES[at];
    design.fields[at] = r.pick(&[low - 1, high + 1, i64::MIN, i64::MAX]);
    match r.below(3) {
        0 => design.rates.resize(r.pick(&[0, 4, 6]), 1.0),
        1 => design.fields.resize(r.pick(&[0, 7, 9]), 0),
        _ => return Some(19),
    }
    Some(18)
}
