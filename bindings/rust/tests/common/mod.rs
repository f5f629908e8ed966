//! Recordings as text.

use huntelm::Params;

/// The recording that ships with the repository.
pub const RECORDING: &str = include_str!("../../../../examples/recording.csv");

fn numbers(line: &str) -> Vec<i64> {
    line.split(',').map(|f| f.parse().unwrap()).collect()
}

/// The sheet with its banks, and the pairs.
pub fn recording(text: &str) -> (Params, Vec<[i16; 2]>) {
    let lines: Vec<Vec<i64>> = text.lines().map(numbers).collect();
    let bank = |first: usize| {
        let rows = lines[first..first + 64].concat();
        rows.iter().map(|n| i32::try_from(*n).unwrap()).collect()
    };
    let params = Params::from_places(&lines[0], bank(1), bank(65), bank(129)).unwrap();
    let value = |n: i64| i16::try_from(n).unwrap();
    let pairs = lines[193..].iter().map(|p| [value(p[0]), value(p[1])]);
    (params, pairs.collect())
}
