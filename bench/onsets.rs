//! Measures the search for an onset, in the longest rows of values at the greatest factor.
//!
//! Each repetition has a fresh row. After it the answers of library, Rust and C are compared, and to the bit the two numbers that a search may
//! write: one that it must leave is still the one that was there before. An earlier version of the library must not refuse.

use crate::{data, library, onset, rust};
use std::time::{Duration, Instant};

/// One line of the table: what is measured, how often, what fills the row of a repetition and answers a threshold for it, and what a search must
/// answer: 1 for a row without an onset, 2 for one that has it.
pub struct Case {
    pub name: &'static str,
    pub title: &'static str,
    pub repetitions: u64,
    fill: fn(u64, &mut [i32]) -> Result<i32, String>,
    answer: i64,
}

pub const CASES: [Case; 4] = [
    Case {
        name: "onset_none",
        title: "find an onset, none in 65521 values",
        repetitions: 2000,
        fill: fill_quiet,
        answer: 1,
    },
    Case {
        name: "onset_end",
        title: "find an onset, at the end of 65521 values",
        repetitions: 2000,
        fill: |repetition, values| {
            let threshold = fill_quiet(repetition, values)?;
            values[rust::MOST_VALUES - rust::RUN..].fill(threshold);
            Ok(threshold)
        },
        answer: 2,
    },
    // Of each eight values the scan looks only at the last, which is the one below the threshold.
    Case {
        name: "onset_seven_of_eight",
        title: "find an onset, seven of eight values reached",
        repetitions: 2000,
        fill: |repetition, values| Ok(fill_periods(repetition, values, 8, 1)),
        answer: 1,
    },
    // Two values are below the threshold, then seven are not: the scan looks at every value.
    Case {
        name: "onset_seven_of_nine",
        title: "find an onset, seven of nine values reached",
        repetitions: 2000,
        fill: |repetition, values| Ok(fill_periods(repetition, values, 9, 2)),
        answer: 1,
    },
];

type Search = fn(&[i32], usize, i32, &mut f64, &mut f64) -> i64;

/// The search of the earlier version of the library, if there is one that finds onsets.
const BEFORE: Option<Search> = earlier!("onset_find", before::onset_find);

/// The threshold of the rows with a period: 4096 counts.
const THRESHOLD: i32 = 256 * 4096;

/// Fills a row with what the library's transform and zoom make of samples. The threshold is the least that no eight values in a row reach: the
/// greatest value and some beside it do.
pub fn fill_quiet(repetition: u64, values: &mut [i32]) -> Result<i32, String> {
    let mut samples = vec![0; rust::LONGEST_ROW];
    let mut coefficients = vec![0; rust::LONGEST_ROW];
    let mut work = vec![0; rust::LONGEST_ROW + 2 * rust::MARGIN];
    data::fill(repetition, &mut samples);
    let answer = library::row_transform(&samples, &mut coefficients, &mut work);
    if answer < 0 {
        return Err(format!("the row transform refused, {answer}"));
    }
    let answer = library::row_zoom(&coefficients, rust::LARGEST_FACTOR, values);
    if answer < 0 {
        return Err(format!("row zoom refused, {answer}"));
    }
    let reached = values
        .windows(rust::RUN)
        .map(|run| run.iter().fold(i32::MAX, |least, &value| least.min(value)))
        .fold(i32::MIN, i32::max);
    Ok(reached + 1)
}

/// Fills a row in which of each `period` values the first `missed` are below the threshold and the others are not. A sample says how far a value
/// is from it, and where the first period begins changes with the repetition.
fn fill_periods(repetition: u64, values: &mut [i32], period: usize, missed: usize) -> i32 {
    let mut samples = vec![0_i16; values.len()];
    data::fill(repetition, &mut samples);
    for (place, (value, sample)) in values.iter_mut().zip(samples).enumerate() {
        let distance = i32::from(sample.unsigned_abs());
        *value = if (place + repetition as usize) % period < missed {
            THRESHOLD - 1 - distance
        } else {
            THRESHOLD + distance
        };
    }
    THRESHOLD
}

/// What a search answers, and the two numbers that it may write.
#[derive(Clone, Copy, Debug)]
struct Found {
    answer: i64,
    position: f64,
    height: f64,
}

impl Found {
    /// What is there before a search: no answer, and no number that it writes.
    const NOTHING: Found = Found {
        answer: 0,
        position: f64::NAN,
        height: f64::NAN,
    };

    fn bits(&self) -> (i64, u64, u64) {
        (self.answer, self.position.to_bits(), self.height.to_bits())
    }
}

fn time(search: Search, values: &[i32], threshold: i32, to: &mut Found) -> Duration {
    *to = Found::NOTHING;
    let start = Instant::now();
    to.answer = search(
        values,
        rust::LARGEST_FACTOR,
        threshold,
        &mut to.position,
        &mut to.height,
    );
    start.elapsed()
}

/// What is wrong in what the library, Rust and C find, if anything is.
fn fault(case: &Case, [library, rust, c]: &[Found; 3]) -> Option<String> {
    if library.answer != case.answer {
        return Some(format!("the library finds {library:?}"));
    }
    for (who, other) in [("Rust", rust), ("C", c)] {
        if other.bits() != library.bits() {
            return Some(format!("the library finds {library:?} and {who} {other:?}"));
        }
    }
    None
}

/// The refusal of a version, if one refuses.
fn refusal(_: &Case, versions: &[Found; 2]) -> Option<String> {
    let found = versions.iter().find(|found| found.answer < 0)?;
    Some(format!("refused, {}", found.answer))
}

/// The least times of searches, in microseconds. They take turns in going first, and after each repetition `wrong` looks at what they find.
fn least_times<const N: usize>(
    case: &Case,
    searches: [Search; N],
    wrong: fn(&Case, &[Found; N]) -> Option<String>,
) -> Result<[f64; N], String> {
    let mut values = vec![0; rust::MOST_VALUES];
    let mut found = [Found::NOTHING; N];
    let mut least = [Duration::MAX; N];
    for repetition in 0..case.repetitions {
        let threshold = (case.fill)(repetition, &mut values)?;
        // Even repetitions are made of noise and odd ones of clicks; in each kind each of the searches goes first.
        let first = repetition as usize / 2 % N;
        for turn in 0..N {
            let i = (first + turn) % N;
            least[i] = least[i].min(time(searches[i], &values, threshold, &mut found[i]));
        }
        if let Some(what) = wrong(case, &found) {
            return Err(format!("{}, repetition {repetition}: {what}", case.name));
        }
    }
    Ok(least.map(|time| time.as_nanos() as f64 / 1000.0))
}

/// The least times of the library, of Rust and of C.
pub fn measure(case: &Case) -> Result<[f64; 3], String> {
    let searches = [library::onset_find, rust::onset_find, onset::find];
    least_times(case, searches, fault)
}

/// The least times of the library and of the earlier version, if there is one that finds onsets.
pub fn measure_versions(case: &Case) -> Option<Result<[f64; 2], String>> {
    let searches = [library::onset_find, BEFORE?];
    Some(least_times(case, searches, refusal))
}
