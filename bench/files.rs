//! Measures the reading of WAVE files in memory. A call takes too little time for the clock, so that each time holds the calls on many files and
//! is divided by their number.
//!
//! The files of each repetition are fresh. Library, Rust and C read every one of them before the clock starts, and the answers and samples are
//! compared with what the files were made of; an earlier version of the library must not refuse one. In the time they read one file after the
//! other, all into the same sample buffer: the time of a copy can depend on where its two parts of memory lie.

use crate::{data, library, rust, wave};
use std::time::{Duration, Instant};

/// One line of the table: what is measured, how often, how many files a repetition has and how many samples each file.
pub struct Case {
    pub name: &'static str,
    pub title: &'static str,
    pub repetitions: u64,
    files: u64,
    samples: usize,
}

pub const CASES: [Case; 2] = [
    Case {
        name: "wav_read",
        title: "read a WAVE file, 4096 samples",
        repetitions: 2000,
        files: 16,
        samples: rust::LONGEST_ROW,
    },
    Case {
        name: "wav_read_short",
        title: "read a WAVE file, 64 samples",
        repetitions: 2000,
        files: 256,
        samples: 64,
    },
];

type Reading = fn(&[u8], &mut [i16]) -> i64;

/// Reads the file of a clip into a buffer: the answer, or what is wrong.
type Test = fn(&Clip, Reading, &mut [i16]) -> Result<i64, String>;

/// Who reads, how, and how that is tested.
type Reader = (&'static str, Reading, Test);

const LIBRARY: Reader = ("the library", library::wav_read, Clip::exact);
const RUST: Reader = ("Rust", rust::wav_read, Clip::exact);
const C: Reader = ("C", wave::read, Clip::exact);

/// The reading of the earlier version of the library, if there is one that reads files.
const BEFORE: Option<Reading> = earlier!("wav_read", before::wav_read);

const LEAST_RATE: u32 = 96_000;

/// A file and what it is made of.
struct Clip {
    rate: u32,
    samples: Vec<i16>,
    file: Vec<u8>,
}

impl Clip {
    fn new(case: &Case) -> Clip {
        Clip {
            rate: 0,
            samples: vec![0; case.samples],
            file: Vec::new(),
        }
    }

    /// The clip of a number, and its file: the header, a "fmt " chunk of 16 bytes and the "data" chunk.
    fn fill(&mut self, number: u64) {
        self.rate = LEAST_RATE + number as u32;
        data::fill(number, &mut self.samples);
        let size = 2 * self.samples.len() as u32;
        let file = &mut self.file;
        file.clear();
        file.extend(b"RIFF");
        file.extend((36 + size).to_le_bytes());
        file.extend(b"WAVEfmt ");
        file.extend(16_u32.to_le_bytes());
        // Plain numbers in one channel; the samples and the bytes of a second; the bytes and the bits of a sample.
        file.extend(1_u16.to_le_bytes());
        file.extend(1_u16.to_le_bytes());
        file.extend(self.rate.to_le_bytes());
        file.extend((2 * self.rate).to_le_bytes());
        file.extend(2_u16.to_le_bytes());
        file.extend(16_u16.to_le_bytes());
        file.extend(b"data");
        file.extend(size.to_le_bytes());
        file.extend(self.samples.iter().flat_map(|sample| sample.to_le_bytes()));
    }

    /// What reading answers.
    fn answer(&self) -> i64 {
        65536 * i64::from(self.rate) + self.samples.len() as i64
    }

    /// Tests all that reading gives. No number that the buffer has before is one that it must have after.
    fn exact(&self, read: Reading, buffer: &mut [i16]) -> Result<i64, String> {
        for (number, sample) in buffer.iter_mut().zip(&self.samples) {
            *number = !sample;
        }
        let answer = read(&self.file, buffer);
        if answer != self.answer() {
            return Err(format!("answers {answer}, not {}", self.answer()));
        }
        match (0..buffer.len()).find(|&k| buffer[k] != self.samples[k]) {
            Some(k) => Err(format!(
                "reads sample {k} as {}, not {}",
                buffer[k], self.samples[k]
            )),
            None => Ok(answer),
        }
    }

    /// Tests only that the file is not refused.
    fn accepted(&self, read: Reading, buffer: &mut [i16]) -> Result<i64, String> {
        match read(&self.file, buffer) {
            answer if answer < 0 => Err(format!("answers {answer}")),
            answer => Ok(answer),
        }
    }
}

/// The least times of readers for one file, in microseconds. They take turns in going first.
fn least_times<const N: usize>(case: &Case, readers: [Reader; N]) -> Result<[f64; N], String> {
    let mut clips: Vec<Clip> = (0..case.files).map(|_| Clip::new(case)).collect();
    let mut buffer = vec![0; case.samples];
    let mut least = [Duration::MAX; N];
    for repetition in 0..case.repetitions {
        let place = format!("{}, repetition {repetition}", case.name);
        for (number, clip) in (repetition * case.files..).zip(&mut clips) {
            clip.fill(number);
        }
        let mut answers = [0; N];
        for (answers, (who, read, test)) in answers.iter_mut().zip(readers) {
            for clip in &clips {
                *answers += test(clip, read, &mut buffer)
                    .map_err(|what| format!("{place}: {who} {what}"))?;
            }
        }
        for turn in 0..N {
            let i = (repetition as usize + turn) % N;
            let (who, read, _) = readers[i];
            let start = Instant::now();
            let sum: i64 = clips.iter().map(|clip| read(&clip.file, &mut buffer)).sum();
            least[i] = least[i].min(start.elapsed());
            if sum != answers[i] {
                return Err(format!("{place}: {who} gives other answers in the time"));
            }
        }
    }
    Ok(least.map(|time| time.as_nanos() as f64 / 1000.0 / case.files as f64))
}

/// The least times of the library, of Rust and of C.
pub fn measure(case: &Case) -> Result<[f64; 3], String> {
    least_times(case, [LIBRARY, RUST, C])
}

/// The least times of the library and of the earlier version, if there is one that reads files.
pub fn measure_versions(case: &Case) -> Option<Result<[f64; 2], String>> {
    let before = ("the earlier version", BEFORE?, Clip::accepted as Test);
    Some(least_times(case, [LIBRARY, before]))
}
