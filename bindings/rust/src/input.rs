//! Float samples.

use crate::{Refusal, archive};

/// A float sample as the front end takes it, I then Q: each component times 2048, rounded to the nearest with ties away from zero, clamped
/// to −2048..2047, a NaN to 0.
///
/// ```
/// assert_eq!(huntelm::input_sample([0.25, -2.0]), [512, -2048]);
/// ```
pub fn input_sample(sample: [f32; 2]) -> [i16; 2] {
    let mut values = [0; 2];
    Refusal::check(archive::sample(&sample, &mut values))
        .expect("two floats and two places are never refused");
    values
}
