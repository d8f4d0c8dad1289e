//! Measures the library beside the same operations in safe Rust and in C, where the splines are by the classic algorithm.
//!
//! `main list` prints the name, the repetitions and the title of each case, parted by tabs. `main NAME` measures one case and prints three
//! times in microseconds: the library's, that of Rust and that of C. Each is the minimum over the repetitions; each repetition has fresh data,
//! which all get. The answers of library and Rust and every number of their buffers are compared, and the results of C, which are not exact,
//! must lie near those of the library. A difference ends the program with status 1. files.rs has the cases that read files,
//! onsets.rs those that find an onset, turns.rs those that take turns and delays.rs those of the delay between two rows, where the plotter's
//! function, which stands above the library, is called the library.
//!
//! `main versions` measures the library beside an earlier version of it, if the program is built with one, and prints a line for each case that
//! both have, its fields parted by tabs: the title, the library's time and that of the earlier version. Both get the same data, as above and
//! taking turns; their results are not compared, since an earlier version may round otherwise, but neither may refuse.
//!
//! `main bands` measures the library on a band of a picture beside the same pixels closely packed, taking turns too, and prints a line like
//! those: the title, the time of the band and that of the packed pixels. The answers and every number of their buffers are compared.
//!
//! `main forms` measures enlarging by the library beside two other forms of it in safe Rust, in the same way, and prints such a line for each case:
//! the title, the library's time, that of Rust which computes each value by itself, and that of Rust which keeps four whole lines in memory.
//!
//! `main turns` measures the taking of turns by the library beside two other forms of it in safe Rust, and prints such lines: the title, the library's
//! time, that of Rust which changes the state where it is, and that of Rust which does so with marks that are the bits of a word.

/// The operation of the earlier version, if the program is built with one that has the C function of this name: each of its functions is told
/// by `--cfg 'before="NAME"'`, and the crate `before` calls them.
macro_rules! earlier {
    ($name:literal, $operation:expr) => {{
        #[cfg(before = $name)]
        {
            Some($operation)
        }
        #[cfg(not(before = $name))]
        {
            None
        }
    }};
}

mod classic;
mod data;
mod delay;
mod delays;
mod files;
mod library;
mod onset;
mod onsets;
mod rust;
mod turn;
mod turns;
mod wave;

use std::hint::black_box;
use std::process::ExitCode;
use std::time::{Duration, Instant};

/// What an operation reads: samples or pixels, or their coefficients, which in C are in double precision. One that gives a value reads a position
/// along a row, or along both sides of a picture: k, the numerator j, and the factor. Factor and side stand here for the compiler not to know
/// them, as it does not when it builds the library. `packed` are the pixels of a band of the picture, closely packed.
struct Input {
    samples: Vec<i16>,
    packed: Vec<i16>,
    coefficients: Vec<i32>,
    real_coefficients: Vec<f64>,
    x: Vec<(usize, usize)>,
    y: Vec<(usize, usize)>,
    side: usize,
    factor: usize,
}

/// What an operation answers and writes. C answers nothing and writes numbers in double precision: a row, a picture or values, and a line or four.
struct Output {
    answer: i64,
    numbers: Vec<i32>,
    work: Vec<i64>,
    reals: Vec<f64>,
    line: Vec<f64>,
}

type Operation = fn(&Input, &mut Output);

/// Makes the coefficients of the samples and answers as the library's transform does.
type Making = fn(&mut Input) -> i64;

/// One line of the table: what is measured, how often, and how many numbers it reads, writes and works in; `packed` counts the pixels of a band
/// that are closely packed, for a case with one. `coefficients` makes those that an operation reads. `scale` has the length of the row, or of each
/// side of the picture, and the factor, of an operation that reads them from the input. One that gives a value, with `positions`, is called for
/// each number that is written, at a position of its own. The line is that of C, or its four lines. A number of the library is `unit` times the
/// one of C, and may differ from it by `distance`: that is at least what is proved of the library's distance to the exact number, and some room
/// for the error of C. `before` is the operation of the earlier version.
struct Case {
    name: &'static str,
    title: &'static str,
    repetitions: u64,
    samples: usize,
    packed: usize,
    coefficients: Option<Making>,
    scale: Option<(usize, usize)>,
    positions: bool,
    numbers: usize,
    work: usize,
    line: usize,
    unit: f64,
    distance: f64,
    library: Operation,
    before: Option<Operation>,
    rust: Operation,
    c: Operation,
}

const ROW: usize = rust::LONGEST_ROW;
const SIDE: usize = rust::LONGEST_SIDE;

/// How many words of work a measured transform gets beside as many as its longest line has numbers: more than the library or an earlier version
/// takes, and what is left alone of them is compared as well.
const MORE_WORK: usize = 64;

/// How wide a band of a picture is.
const BAND: usize = 128;

const FACTOR: usize = rust::LARGEST_FACTOR;

/// The side of the largest square picture that can be enlarged at the largest factor.
const SMALL_SIDE: usize = 64;

/// One value takes too little time for the clock: a repetition asks for this many, and the time is that of all.
const VALUES: usize = 4096;

/// Where the numbers of the positions begin among those of a repetition: no sample takes one of them.
const FIRST_X: u64 = 1 << 30;
const FIRST_Y: u64 = 3 << 30;

/// A band of a picture, closely packed.
const PACKED_BAND: Case = Case {
    name: "picture_transform_packed",
    title: "picture transform, 128 x 512 pixels",
    repetitions: 240,
    samples: SIDE * SIDE,
    packed: BAND * SIDE,
    coefficients: None,
    scale: None,
    positions: false,
    numbers: BAND * SIDE,
    work: SIDE + MORE_WORK,
    line: SIDE,
    unit: 4096.0,
    distance: 8.0,
    library: |from, to| {
        to.answer = library::picture_transform(
            &from.packed,
            BAND,
            SIDE,
            BAND,
            &mut to.numbers,
            &mut to.work,
        );
    },
    before: earlier!("picture_transform", |from, to| {
        to.answer = before::picture_transform(
            &from.packed,
            BAND,
            SIDE,
            BAND,
            &mut to.numbers,
            &mut to.work,
        );
    }),
    rust: |from, to| {
        to.answer = rust::picture_transform(
            &from.packed,
            BAND,
            SIDE,
            BAND,
            &mut to.numbers,
            &mut to.work,
        );
    },
    c: |from, to| {
        classic::picture_transform(&from.packed, BAND, SIDE, BAND, &mut to.reals, &mut to.line);
    },
};

/// The same pixels where they lie in the picture. An earlier version may know no bands.
const BAND_IN_PICTURE: Case = Case {
    name: "picture_transform_band",
    title: "picture transform, a band of 128 x 512 in 512 x 512",
    library: |from, to| {
        to.answer = library::picture_transform(
            &from.samples,
            BAND,
            SIDE,
            SIDE,
            &mut to.numbers,
            &mut to.work,
        );
    },
    before: None,
    rust: |from, to| {
        to.answer = rust::picture_transform(
            &from.samples,
            BAND,
            SIDE,
            SIDE,
            &mut to.numbers,
            &mut to.work,
        );
    },
    c: |from, to| {
        classic::picture_transform(&from.samples, BAND, SIDE, SIDE, &mut to.reals, &mut to.line);
    },
    ..PACKED_BAND
};

/// The values of a picture of side 64, enlarged at factor 16.
const ENLARGED: Case = Case {
    name: "picture_enlarge_16",
    title: "enlarge, 64 x 64 pixels at factor 16",
    repetitions: 40,
    samples: SMALL_SIDE * SMALL_SIDE,
    packed: 0,
    coefficients: Some(make_picture),
    scale: Some((SMALL_SIDE, FACTOR)),
    positions: false,
    numbers: enlarged_side(SMALL_SIDE, FACTOR).pow(2),
    work: 0,
    line: 4 * enlarged_side(SMALL_SIDE, FACTOR),
    unit: 256.0,
    distance: 1.125,
    library: |from, to| enlarge_with(library::picture_enlarge, from, to),
    before: earlier!("picture_enlarge", |from, to| {
        enlarge_with(before::picture_enlarge, from, to)
    }),
    rust: |from, to| enlarge_with(rust::picture_enlarge, from, to),
    c: |from, to| {
        let (c, side, factor) = (&from.real_coefficients, from.side, from.factor);
        let (values, room) = (&mut to.reals, &mut to.line);
        classic::picture_enlarge(c, side, side, side, factor, values, room);
    },
};

/// The same of the largest picture, whose factor can be 2 at most.
const ENLARGED_TWICE: Case = Case {
    name: "picture_enlarge_2",
    title: "enlarge, 512 x 512 pixels at factor 2",
    samples: SIDE * SIDE,
    scale: Some((SIDE, 2)),
    numbers: enlarged_side(SIDE, 2).pow(2),
    line: 4 * enlarged_side(SIDE, 2),
    ..ENLARGED
};

const CASES: [Case; 9] = [
    Case {
        name: "row_transform",
        title: "row transform, 4096 samples",
        repetitions: 2000,
        samples: ROW,
        packed: 0,
        coefficients: None,
        scale: None,
        positions: false,
        numbers: ROW,
        work: ROW + MORE_WORK,
        line: 0,
        unit: 4096.0,
        distance: 2.0,
        library: |from, to| {
            to.answer = library::row_transform(&from.samples, &mut to.numbers, &mut to.work);
        },
        before: earlier!("row_transform", |from, to| {
            to.answer = before::row_transform(&from.samples, &mut to.numbers, &mut to.work);
        }),
        rust: |from, to| {
            to.answer = rust::row_transform(&from.samples, &mut to.numbers, &mut to.work);
        },
        c: |from, to| {
            classic::row_transform(&from.samples, &mut to.reals);
        },
    },
    Case {
        name: "picture_transform",
        title: "picture transform, 512 x 512 pixels",
        repetitions: 60,
        samples: SIDE * SIDE,
        packed: 0,
        coefficients: None,
        scale: None,
        positions: false,
        numbers: SIDE * SIDE,
        work: SIDE + MORE_WORK,
        line: SIDE,
        unit: 4096.0,
        distance: 8.0,
        library: |from, to| {
            to.answer = library::picture_transform(
                &from.samples,
                SIDE,
                SIDE,
                SIDE,
                &mut to.numbers,
                &mut to.work,
            );
        },
        before: earlier!("picture_transform", |from, to| {
            to.answer = before::picture_transform(
                &from.samples,
                SIDE,
                SIDE,
                SIDE,
                &mut to.numbers,
                &mut to.work,
            );
        }),
        rust: |from, to| {
            to.answer = rust::picture_transform(
                &from.samples,
                SIDE,
                SIDE,
                SIDE,
                &mut to.numbers,
                &mut to.work,
            );
        },
        c: |from, to| {
            classic::picture_transform(
                &from.samples,
                SIDE,
                SIDE,
                SIDE,
                &mut to.reals,
                &mut to.line,
            );
        },
    },
    PACKED_BAND,
    BAND_IN_PICTURE,
    Case {
        name: "row_zoom",
        title: "row zoom, 4096 samples at factor 16",
        repetitions: 500,
        samples: ROW,
        packed: 0,
        coefficients: Some(make_row),
        scale: None,
        positions: false,
        numbers: rust::MOST_VALUES,
        work: 0,
        line: 0,
        unit: 256.0,
        distance: 1.0,
        library: |from, to| {
            to.answer = library::row_zoom(&from.coefficients, FACTOR, &mut to.numbers);
        },
        before: earlier!("row_zoom", |from, to| {
            to.answer = before::row_zoom(&from.coefficients, FACTOR, &mut to.numbers);
        }),
        rust: |from, to| {
            to.answer = rust::row_zoom(&from.coefficients, FACTOR, &mut to.numbers);
        },
        c: |from, to| {
            classic::row_zoom(&from.real_coefficients, FACTOR, &mut to.reals);
        },
    },
    Case {
        name: "row_value",
        title: "row value, 4096 calls at factor 16",
        repetitions: 2000,
        samples: ROW,
        packed: 0,
        coefficients: Some(make_row),
        scale: Some((ROW, FACTOR)),
        positions: true,
        numbers: VALUES,
        work: 0,
        line: 0,
        unit: 256.0,
        distance: 1.0,
        library: |from, to| write_row_values(library::row_value, from, to),
        before: earlier!("row_value", |from, to| {
            write_row_values(before::row_value, from, to)
        }),
        rust: |from, to| write_row_values(rust::row_value, from, to),
        c: |from, to| {
            for (real, &x) in to.reals.iter_mut().zip(&from.x) {
                *real = classic::row_value(&from.real_coefficients, x, from.factor);
            }
        },
    },
    Case {
        name: "picture_value",
        title: "picture value, 4096 calls at factor 16",
        repetitions: 200,
        samples: SIDE * SIDE,
        packed: 0,
        coefficients: Some(make_picture),
        scale: Some((SIDE, FACTOR)),
        positions: true,
        numbers: VALUES,
        work: 0,
        line: 0,
        unit: 256.0,
        distance: 1.125,
        library: |from, to| write_picture_values(library::picture_value, from, to),
        before: earlier!("picture_value", |from, to| {
            write_picture_values(before::picture_value, from, to)
        }),
        rust: |from, to| write_picture_values(rust::picture_value, from, to),
        c: |from, to| {
            let positions = from.x.iter().zip(&from.y);
            for (real, (&x, &y)) in to.reals.iter_mut().zip(positions) {
                let (side, factor) = (from.side, from.factor);
                *real =
                    classic::picture_value(&from.real_coefficients, side, side, side, x, y, factor);
            }
        },
    },
    ENLARGED,
    ENLARGED_TWICE,
];

const ODD_FACTOR: usize = 7;

/// Row zoom at another factor, of the library and the earlier version only: what is not named here is not used.
const ODD_ZOOM: Case = Case {
    name: "row_zoom_odd",
    title: "row zoom, 4096 samples at factor 7",
    numbers: (ROW - 1) * ODD_FACTOR + 1,
    library: |from, to| {
        to.answer = library::row_zoom(&from.coefficients, ODD_FACTOR, &mut to.numbers);
    },
    before: earlier!("row_zoom", |from, to| {
        to.answer = before::row_zoom(&from.coefficients, ODD_FACTOR, &mut to.numbers);
    }),
    ..CASES[4]
};

/// Row value at that factor, likewise.
const ODD_VALUE: Case = Case {
    name: "row_value_odd",
    title: "row value, 4096 calls at factor 7",
    scale: Some((ROW, ODD_FACTOR)),
    ..CASES[5]
};

/// Writes the values that calls answer. The answer is their count, or the number of the first refusal negated: no refusal fits in 32 bits.
fn write_values(answers: impl Iterator<Item = i64>, to: &mut Output) {
    for (number, answer) in to.numbers.iter_mut().zip(answers) {
        match i32::try_from(answer) {
            Ok(value) => *number = value,
            Err(_) => {
                to.answer = rust::REFUSED - answer;
                return;
            }
        }
    }
    to.answer = to.numbers.len() as i64;
}

fn write_row_values(
    value: impl Fn(&[i32], (usize, usize), usize) -> i64,
    from: &Input,
    to: &mut Output,
) {
    let answers = from
        .x
        .iter()
        .map(|&x| value(&from.coefficients, x, from.factor));
    write_values(answers, to);
}

fn write_picture_values(
    value: impl Fn(&[i32], usize, usize, usize, (usize, usize), (usize, usize), usize) -> i64,
    from: &Input,
    to: &mut Output,
) {
    let (side, factor) = (from.side, from.factor);
    let positions = from.x.iter().zip(&from.y);
    let answers =
        positions.map(|(&x, &y)| value(&from.coefficients, side, side, side, x, y, factor));
    write_values(answers, to);
}

/// How many values a side has when it is enlarged.
const fn enlarged_side(n: usize, factor: usize) -> usize {
    (n - 1) * factor + 1
}

fn enlarge_with(
    enlarge: impl Fn(&[i32], usize, usize, usize, usize, &mut [i32]) -> i64,
    from: &Input,
    to: &mut Output,
) {
    let (c, side, factor) = (&from.coefficients, from.side, from.factor);
    to.answer = enlarge(c, side, side, side, factor, &mut to.numbers);
}

/// Makes the coefficients of a row by the library's transform and by that of C, which a case of its own compares.
fn make_row(input: &mut Input) -> i64 {
    classic::row_transform(&input.samples, &mut input.real_coefficients);
    let mut work = vec![0; input.samples.len() + 2 * rust::MARGIN];
    library::row_transform(&input.samples, &mut input.coefficients, &mut work)
}

/// The same of a picture.
fn make_picture(input: &mut Input) -> i64 {
    let side = input.side;
    let mut line = vec![0.0; side];
    let mut work = vec![0; side + 2 * rust::MARGIN];
    let (real, exact) = (&mut input.real_coefficients, &mut input.coefficients);
    classic::picture_transform(&input.samples, side, side, side, real, &mut line);
    library::picture_transform(&input.samples, side, side, side, exact, &mut work)
}

/// Fills the positions of one repetition along a row or a side of n: each is one of all that are on it. Which numbers it takes of those of the
/// repetition `first` says.
fn fill_positions(
    repetition: u64,
    first: u64,
    n: usize,
    factor: usize,
    positions: &mut [(usize, usize)],
) {
    let all = ((n - 1) * factor + 1) as u64;
    for (place, position) in (first..).zip(positions) {
        let chosen = (data::number(repetition, place) % all) as usize;
        *position = (chosen / factor, chosen % factor);
    }
}

impl Input {
    fn new(case: &Case) -> Input {
        let coefficients = case.coefficients.map_or(0, |_| case.samples);
        let positions = if case.positions { case.numbers } else { 0 };
        let (side, factor) = case.scale.unwrap_or_default();
        Input {
            samples: vec![0; case.samples],
            packed: vec![0; case.packed],
            coefficients: vec![0; coefficients],
            real_coefficients: vec![0.0; coefficients],
            x: vec![(0, 0); positions],
            y: vec![(0, 0); positions],
            side,
            factor,
        }
    }

    /// The data of one repetition.
    fn fill(&mut self, case: &Case, repetition: u64) -> Result<(), String> {
        data::fill(repetition, &mut self.samples);
        let rows = self.samples.chunks_exact(SIDE);
        for (row, to) in rows.zip(self.packed.chunks_exact_mut(BAND)) {
            to.copy_from_slice(&row[..BAND]);
        }
        if case.positions {
            let (side, factor) = (self.side, self.factor);
            fill_positions(repetition, FIRST_X, side, factor, &mut self.x);
            fill_positions(repetition, FIRST_Y, side, factor, &mut self.y);
        }
        match case.coefficients.map_or(0, |make| make(self)) {
            answer if answer < 0 => Err(format!("the transform refused, {answer}")),
            _ => Ok(()),
        }
    }

    /// Goes through the coefficients that are read next, the exact ones or those of C. Reading a few of a picture's takes less time after an
    /// operation that has read the same ones: so all of them are as near as they can be, whatever went before.
    fn visit(&self, exact: bool) {
        if exact {
            black_box(self.coefficients.iter().fold(0, |all, c| all ^ c));
        } else {
            black_box(self.real_coefficients.iter().sum::<f64>());
        }
    }
}

impl Output {
    /// The buffers of the library and of Rust.
    fn exact(case: &Case) -> Output {
        Output {
            answer: 0,
            numbers: vec![0; case.numbers],
            work: vec![0; case.work],
            reals: Vec::new(),
            line: Vec::new(),
        }
    }

    /// The buffers of C.
    fn real(case: &Case) -> Output {
        Output {
            answer: 0,
            numbers: Vec::new(),
            work: Vec::new(),
            reals: vec![0.0; case.numbers],
            line: vec![0.0; case.line],
        }
    }

    /// Writes every number, so that the memory is there before anything is measured and a number that is left out shows.
    fn prepare(&mut self) {
        self.numbers.fill(i32::MIN);
        self.work.fill(i64::MIN);
        self.reals.fill(f64::NAN);
        self.line.fill(f64::NAN);
    }
}

fn time(operation: Operation, from: &Input, to: &mut Output) -> Duration {
    to.prepare();
    if !from.x.is_empty() {
        from.visit(to.reals.is_empty());
    }
    let start = Instant::now();
    operation(from, to);
    start.elapsed()
}

fn place_of_difference<Number: PartialEq>(one: &[Number], other: &[Number]) -> Option<usize> {
    one.iter().zip(other).position(|(a, b)| a != b)
}

/// What differs first between the results of two operations, of library and Rust for instance, if anything does.
fn difference(one: &Output, other: &Output) -> Option<String> {
    if one.answer != other.answer {
        return Some(format!("the answers, {} and {}", one.answer, other.answer));
    }
    if let Some(k) = place_of_difference(&one.numbers, &other.numbers) {
        return Some(format!(
            "number {k}, {} and {}",
            one.numbers[k], other.numbers[k]
        ));
    }
    let k = place_of_difference(&one.work, &other.work)?;
    Some(format!(
        "word {k} of work, {} and {}",
        one.work[k], other.work[k]
    ))
}

/// Which result of C is the first that is too far from that of the library, if one is. What is not a number is too far.
fn excess(case: &Case, library: &Output, c: &Output) -> Option<String> {
    let near =
        |number: i32, real: f64| (case.unit * real - f64::from(number)).abs() <= case.distance;
    let k = library
        .numbers
        .iter()
        .zip(&c.reals)
        .position(|(&number, &real)| !near(number, real))?;
    Some(format!(
        "number {k}, {} and {}",
        library.numbers[k],
        case.unit * c.reals[k]
    ))
}

/// What is wrong in the results of the library, of Rust and of C, if anything is.
fn fault(case: &Case, [library, rust, c]: &[Output; 3]) -> Option<String> {
    if rust.answer < 0 {
        return Some(format!("refused, {}", rust.answer));
    }
    if let Some(what) = difference(library, rust) {
        return Some(format!("library and Rust differ in {what}"));
    }
    let what = excess(case, library, c)?;
    Some(format!("library and C differ too much in {what}"))
}

/// The refusal of a version, if one refuses.
fn refusal<const N: usize>(_: &Case, versions: &[Output; N]) -> Option<String> {
    let to = versions.iter().find(|to| to.answer < 0)?;
    Some(format!("refused, {}", to.answer))
}

/// What is wrong in the results for a band and for the same pixels closely packed, if anything is.
fn band_fault(case: &Case, results: &[Output; 2]) -> Option<String> {
    let [band, packed] = results;
    refusal(case, results).or_else(|| {
        let what = difference(band, packed)?;
        Some(format!("band and packed pixels differ in {what}"))
    })
}

/// What is wrong in the results of the library and of other forms of enlarging, if anything is.
fn forms_fault(case: &Case, results: &[Output; 3]) -> Option<String> {
    let [library, terms, lines] = results;
    refusal(case, results).or_else(|| {
        let what = difference(library, terms).or_else(|| difference(library, lines))?;
        Some(format!("library and another form differ in {what}"))
    })
}

/// The least times of operations, in microseconds. They take turns in going first, and after each repetition `wrong` looks at their results.
fn least_times<const N: usize>(
    case: &Case,
    operations: [Operation; N],
    mut to: [Output; N],
    wrong: fn(&Case, &[Output; N]) -> Option<String>,
) -> Result<[f64; N], String> {
    let mut from = Input::new(case);
    let mut least = [Duration::MAX; N];
    for repetition in 0..case.repetitions {
        from.fill(case, repetition)?;
        // Even repetitions are noise and odd ones are clicks; in each kind each of the operations goes first.
        let first = repetition as usize / 2 % N;
        for turn in 0..N {
            let i = (first + turn) % N;
            least[i] = least[i].min(time(operations[i], &from, &mut to[i]));
        }
        if let Some(what) = wrong(case, &to) {
            return Err(format!("{}, repetition {repetition}: {what}", case.name));
        }
    }
    Ok(least.map(|time| time.as_nanos() as f64 / 1000.0))
}

/// The least times of the library, of Rust and of C.
fn measure(case: &Case) -> Result<[f64; 3], String> {
    let operations = [case.library, case.rust, case.c];
    let to = [Output::exact(case), Output::exact(case), Output::real(case)];
    least_times(case, operations, to, fault)
}

/// The least times of the library and of the earlier version, if there is one that has the operation.
fn measure_versions(case: &Case) -> Option<Result<[f64; 2], String>> {
    let operations = [case.library, case.before?];
    let to = [Output::exact(case), Output::exact(case)];
    Some(least_times(case, operations, to, refusal))
}

/// The least times of the library for the band and for the same pixels closely packed.
fn measure_bands() -> Result<[f64; 2], String> {
    let case = BAND_IN_PICTURE;
    let operations = [case.library, PACKED_BAND.library];
    let to = [Output::exact(&case), Output::exact(&case)];
    least_times(&case, operations, to, band_fault)
}

/// The least times of the library, of Rust that computes each value by itself, and of Rust that keeps four whole lines.
fn measure_forms(case: &Case) -> Result<[f64; 3], String> {
    let terms: Operation = |from, to| enlarge_with(rust::picture_enlarge_by_terms, from, to);
    let lines: Operation = |from, to| enlarge_with(rust::picture_enlarge_by_lines, from, to);
    let to = [(); 3].map(|_| Output::exact(case));
    least_times(case, [case.library, terms, lines], to, forms_fault)
}

fn print_bands([band, packed]: [f64; 2]) {
    println!("{}\t{band:.5}\t{packed:.5}", BAND_IN_PICTURE.title);
}

fn print_forms() -> Result<(), String> {
    for case in [ENLARGED, ENLARGED_TWICE] {
        let [library, terms, lines] = measure_forms(&case)?;
        println!("{}\t{library:.5}\t{terms:.5}\t{lines:.5}", case.title);
    }
    Ok(())
}

fn print_turns() -> Result<(), String> {
    for case in &turns::CASES {
        let [library, in_place, bits] = turns::measure_forms(case)?;
        println!("{}\t{library:.5}\t{in_place:.5}\t{bits:.5}", case.title);
    }
    Ok(())
}

fn print_versions() -> Result<(), String> {
    let operations = CASES.iter().chain([&ODD_ZOOM, &ODD_VALUE]);
    let operations = operations.map(|c| (c.title, measure_versions(c)));
    let readings = files::CASES.iter();
    let readings = readings.map(|c| (c.title, files::measure_versions(c)));
    let searches = onsets::CASES.iter();
    let searches = searches.map(|c| (c.title, onsets::measure_versions(c)));
    let turns = turns::CASES.iter();
    let turns = turns.map(|c| (c.title, turns::measure_versions(c)));
    let cases = operations.chain(readings).chain(searches).chain(turns);
    for (title, least) in cases {
        if let Some(least) = least {
            let [library, before] = least?;
            println!("{title}\t{library:.5}\t{before:.5}");
        }
    }
    Ok(())
}

fn print_cases() {
    let operations = CASES.iter().map(|c| (c.name, c.repetitions, c.title));
    let readings = files::CASES
        .iter()
        .map(|c| (c.name, c.repetitions, c.title));
    let searches = onsets::CASES
        .iter()
        .map(|c| (c.name, c.repetitions, c.title));
    let turns = turns::CASES
        .iter()
        .map(|c| (c.name, c.repetitions, c.title));
    let delays = delays::CASES
        .iter()
        .map(|c| (c.name, c.repetitions, c.title));
    let cases = operations.chain(readings).chain(searches).chain(turns);
    for (name, repetitions, title) in cases.chain(delays) {
        println!("{name}\t{repetitions}\t{title}");
    }
}

fn print_times([library, rust, c]: [f64; 3]) {
    println!("{library:.5} {rust:.5} {c:.5}");
}

fn main() -> ExitCode {
    let word = std::env::args().nth(1).unwrap_or_default();
    let done = if word == "list" {
        print_cases();
        Ok(())
    } else if word == "versions" {
        print_versions()
    } else if word == "bands" {
        measure_bands().map(print_bands)
    } else if word == "forms" {
        print_forms()
    } else if word == "turns" {
        print_turns()
    } else if let Some(case) = CASES.iter().find(|case| case.name == word) {
        measure(case).map(print_times)
    } else if let Some(case) = files::CASES.iter().find(|case| case.name == word) {
        files::measure(case).map(print_times)
    } else if let Some(case) = onsets::CASES.iter().find(|case| case.name == word) {
        onsets::measure(case).map(print_times)
    } else if let Some(case) = turns::CASES.iter().find(|case| case.name == word) {
        turns::measure(case).map(print_times)
    } else if let Some(case) = delays::CASES.iter().find(|case| case.name == word) {
        delays::measure(case).map(print_times)
    } else {
        eprintln!("bench: no case '{word}'; 'list' prints them");
        return ExitCode::from(2);
    };
    match done {
        Ok(()) => ExitCode::SUCCESS,
        Err(what) => {
            eprintln!("bench: {what}");
            ExitCode::FAILURE
        }
    }
}
