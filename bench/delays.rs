//! Measures the delay between the onsets of two rows, both of them the longest rows of values at the greatest factor.
//!
//! Each repetition has two fresh rows. After it the answers of library, Rust and C are compared, and to the bit the three numbers that may be
//! written: where there is no delay, they are still the ones that were there before. What is called the library here is the plotter's function,
//! which calls the library's search.

use crate::{data, delay, library, onsets, rust};
use std::time::{Duration, Instant};

/// Fills the two rows of a repetition and answers a threshold for them.
type Filling = fn(u64, &mut [i32], &mut [i32]) -> Result<i32, String>;

/// One line of the table: what is measured, how often, what fills the rows, and what must be answered: 0 for a delay, 20 where a row has no onset.
pub struct Case {
    pub name: &'static str,
    pub title: &'static str,
    pub repetitions: u64,
    fill: Filling,
    answer: usize,
}

pub const CASES: [Case; 4] = [
    // The onset of the second row is one unit higher, so that heights that are exchanged show.
    Case {
        name: "delay_end",
        title: "delay, both onsets at the end of 65521 values",
        repetitions: 2000,
        fill: |repetition, first, second| {
            let threshold = fill_quiet(repetition, first, second)?;
            let earlier = 1 + repetition as usize % NEAR;
            set_run(first, LAST_PLACE, threshold);
            set_run(second, LAST_PLACE - earlier, threshold + 1);
            Ok(threshold)
        },
        answer: 0,
    },
    Case {
        name: "delay_clicks",
        title: "delay, onsets in the middle of 65521 values",
        repetitions: 2000,
        fill: |repetition, first, second| {
            let threshold = fill_quiet(repetition, first, second)?;
            set_click(repetition, first, threshold);
            set_click(repetition + SECOND_ROWS, second, threshold);
            Ok(threshold)
        },
        answer: 0,
    },
    // The second row is only judged: its onset is not searched.
    Case {
        name: "delay_first_quiet",
        title: "delay, first row quiet",
        repetitions: 2000,
        fill: |repetition, first, second| {
            let threshold = fill_quiet(repetition, first, second)?;
            set_run(second, LAST_PLACE, threshold);
            Ok(threshold)
        },
        answer: 20,
    },
    Case {
        name: "delay_second_quiet",
        title: "delay, second row quiet",
        repetitions: 2000,
        fill: |repetition, first, second| {
            let threshold = fill_quiet(repetition, first, second)?;
            set_run(first, LAST_PLACE, threshold);
            Ok(threshold)
        },
        answer: 20,
    },
];

type Measuring = fn(&[i32], &[i32], usize, i32, &mut f64, &mut f64, &mut f64) -> usize;

/// The last place that an onset can have.
const LAST_PLACE: usize = rust::MOST_VALUES - rust::RUN;

/// Among how many places one is chosen for an onset.
const NEAR: usize = 256;

/// The first of those around the middle.
const MIDDLE: usize = (rust::MOST_VALUES - NEAR) / 2;

/// What is added to a repetition for the data of its second row. It is even, so that both rows are made of noise or both of clicks.
const SECOND_ROWS: u64 = 1 << 31;

/// Where the number of a run is among those of a repetition: no sample takes it.
const RUN_NUMBER: u64 = 1 << 30;

/// Fills both rows. The threshold is the least that no eight values in a row reach in either of them.
fn fill_quiet(repetition: u64, first: &mut [i32], second: &mut [i32]) -> Result<i32, String> {
    let least = onsets::fill_quiet(repetition, first)?;
    let other = onsets::fill_quiet(repetition + SECOND_ROWS, second)?;
    Ok(least.max(other))
}

fn set_run(values: &mut [i32], place: usize, value: i32) {
    values[place..place + rust::RUN].fill(value);
}

/// Sets a run around the middle. Its place and its height are chosen for each row: a delay can be negative, and the heights differ.
fn set_click(repetition: u64, values: &mut [i32], threshold: i32) {
    let number = data::number(repetition, RUN_NUMBER);
    let place = MIDDLE + number as usize % NEAR;
    set_run(values, place, threshold + (number >> 48) as i32);
}

/// What is answered, and the three numbers that may be written.
#[derive(Clone, Copy, Debug)]
struct Measured {
    answer: usize,
    samples: f64,
    first_height: f64,
    second_height: f64,
}

impl Measured {
    /// What is there before: an answer that is never given, and numbers that are never written.
    const NOTHING: Measured = Measured {
        answer: usize::MAX,
        samples: f64::NAN,
        first_height: f64::NAN,
        second_height: f64::NAN,
    };

    fn bits(&self) -> (usize, [u64; 3]) {
        let numbers = [self.samples, self.first_height, self.second_height];
        (self.answer, numbers.map(f64::to_bits))
    }
}

/// Rust gives the delay by value. It is written here, as the C function of the plotter writes it.
fn write_delay(
    first: &[i32],
    second: &[i32],
    factor: usize,
    threshold: i32,
    samples: &mut f64,
    first_height: &mut f64,
    second_height: &mut f64,
) -> usize {
    match rust::delay(first, second, factor, threshold) {
        Ok(delay) => {
            *samples = delay.samples;
            *first_height = delay.first_height;
            *second_height = delay.second_height;
            0
        }
        Err(refusal) => refusal,
    }
}

fn time(
    measuring: Measuring,
    first: &[i32],
    second: &[i32],
    threshold: i32,
    to: &mut Measured,
) -> Duration {
    *to = Measured::NOTHING;
    let start = Instant::now();
    to.answer = measuring(
        first,
        second,
        rust::LARGEST_FACTOR,
        threshold,
        &mut to.samples,
        &mut to.first_height,
        &mut to.second_height,
    );
    start.elapsed()
}

/// What is wrong in what the library, Rust and C give, if anything is.
fn fault(case: &Case, [library, rust, c]: &[Measured; 3]) -> Option<String> {
    let refused = Measured {
        answer: case.answer,
        ..Measured::NOTHING
    };
    if library.answer != case.answer {
        return Some(format!("the library gives {library:?}"));
    }
    if case.answer != 0 && library.bits() != refused.bits() {
        return Some(format!("the library refuses and writes, {library:?}"));
    }
    for (who, other) in [("Rust", rust), ("C", c)] {
        if other.bits() != library.bits() {
            return Some(format!("the library gives {library:?} and {who} {other:?}"));
        }
    }
    None
}

/// The least times of the library, of Rust and of C, in microseconds. They take turns in going first, and what they give is compared after each
/// repetition.
pub fn measure(case: &Case) -> Result<[f64; 3], String> {
    let measurings: [Measuring; 3] = [library::delay_between, write_delay, delay::between];
    let mut first = vec![0; rust::MOST_VALUES];
    let mut second = vec![0; rust::MOST_VALUES];
    let mut measured = [Measured::NOTHING; 3];
    let mut least = [Duration::MAX; 3];
    for repetition in 0..case.repetitions {
        let threshold = (case.fill)(repetition, &mut first, &mut second)?;
        // Even repetitions are made of noise and odd ones of clicks; in each kind each of the three goes first.
        let leader = repetition as usize / 2 % 3;
        for turn in 0..3 {
            let i = (leader + turn) % 3;
            let taken = time(measurings[i], &first, &second, threshold, &mut measured[i]);
            least[i] = least[i].min(taken);
        }
        if let Some(what) = fault(case, &measured) {
            return Err(format!("{}, repetition {repetition}: {what}", case.name));
        }
    }
    Ok(least.map(|time| time.as_nanos() as f64 / 1000.0))
}
