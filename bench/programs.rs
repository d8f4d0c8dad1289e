//! Measures whole runs of the program rowzoom beside those of the C program that does the same.
//!
//! `programs PROGRAM C_PROGRAM FOLDER` prints a line for each case, its fields parted by tabs: the title, the runs of each program, and two
//! times in microseconds, the program's and that of C. Each is the minimum over the runs, from the start of the process to its end. Both read
//! the same text from a file, fresh in each run, and write to a new file, in FOLDER; what they write is compared byte for byte. A difference
//! ends the program with status 1.

mod data;

use std::fs::{self, File};
use std::io;
use std::path::{Path, PathBuf};
use std::process::{Command, ExitCode};
use std::time::{Duration, Instant};

/// One line of the table: what is measured, how often, the text of each run, and how the output of both must begin.
struct Case {
    title: &'static str,
    runs: u64,
    text: fn(u64) -> String,
    begins: &'static str,
}

const ROW: usize = 4096;
const FACTOR: usize = 16;

const CASES: [Case; 3] = [
    Case {
        title: "4096 samples at factor 16",
        runs: 200,
        text: largest_text,
        begins: "rowzoom 4096 16 65521\n",
    },
    Case {
        title: "empty text, which is refused",
        runs: 200,
        text: |_| String::new(),
        begins: "refused 10\n",
    },
    Case {
        title: "4096 samples without the last line feed, refused",
        runs: 200,
        text: |run| largest_text(run).trim_end().to_string(),
        begins: "refused 10\n",
    },
];

/// The factor and the samples of one run.
fn largest_text(run: u64) -> String {
    let mut samples = [0; ROW];
    data::fill(run, &mut samples);
    let mut text = format!("{FACTOR}\n");
    for sample in samples {
        text.push_str(&format!("{sample}\n"));
    }
    text
}

/// A program, the file that it writes, and its least time.
struct Side {
    program: PathBuf,
    output: PathBuf,
    least: Duration,
}

impl Side {
    fn new(program: &str, output: PathBuf) -> io::Result<Side> {
        Ok(Side {
            program: fs::canonicalize(program)?,
            output,
            least: Duration::MAX,
        })
    }

    /// Runs the program once. Its files are opened before the clock starts.
    fn run(&mut self, text: &Path) -> Result<(), String> {
        let failed = |error: io::Error| format!("{}: {error}", self.program.display());
        if self.output.exists() {
            fs::remove_file(&self.output).map_err(failed)?;
        }
        let mut command = Command::new(&self.program);
        command.stdin(File::open(text).map_err(failed)?);
        command.stdout(File::create(&self.output).map_err(failed)?);
        let start = Instant::now();
        let status = command.status().map_err(failed)?;
        let time = start.elapsed();
        if !status.success() {
            return Err(format!("{} ended with {status}", self.program.display()));
        }
        self.least = self.least.min(time);
        Ok(())
    }

    fn written(&self) -> Result<Vec<u8>, String> {
        fs::read(&self.output).map_err(|error| format!("{}: {error}", self.output.display()))
    }
}

/// Where the outputs of the two programs differ, if they do, or that they are not what is to be measured.
fn difference(case: &Case, one: &[u8], other: &[u8]) -> Option<String> {
    if one != other {
        let same = one.iter().zip(other).take_while(|(a, b)| a == b).count();
        return Some(format!("the outputs differ after {same} bytes"));
    }
    if !one.starts_with(case.begins.as_bytes()) {
        return Some(format!("the outputs do not begin with {:?}", case.begins));
    }
    None
}

/// The least times of the program and of C. They take turns in going first.
fn measure(case: &Case, programs: [&str; 2], folder: &Path) -> Result<[Duration; 2], String> {
    let text = folder.join("text");
    let side = |i: usize| {
        Side::new(programs[i], folder.join(format!("output-{i}")))
            .map_err(|error| format!("{}: {error}", programs[i]))
    };
    let mut sides = [side(0)?, side(1)?];
    for run in 0..case.runs {
        fs::write(&text, (case.text)(run)).map_err(|error| format!("the text: {error}"))?;
        // Even runs are noise and odd ones are clicks; each kind is measured in both orders.
        let first = (run / 2 % 2) as usize;
        sides[first].run(&text)?;
        sides[1 - first].run(&text)?;
        let outputs = [sides[0].written()?, sides[1].written()?];
        if let Some(what) = difference(case, &outputs[0], &outputs[1]) {
            return Err(format!("{}, run {run}: {what}", case.title));
        }
    }
    Ok(sides.map(|side| side.least))
}

fn main() -> ExitCode {
    let words: Vec<String> = std::env::args().collect();
    let [_, program, c_program, folder] = &words[..] else {
        eprintln!("bench: usage: programs PROGRAM C_PROGRAM FOLDER");
        return ExitCode::from(2);
    };
    for case in &CASES {
        match measure(case, [program, c_program], Path::new(folder)) {
            Ok(least) => {
                let [program, c] = least.map(|time| time.as_nanos() as f64 / 1000.0);
                println!("{}\t{}\t{program:.2}\t{c:.2}", case.title, case.runs);
            }
            Err(what) => {
                eprintln!("bench: {what}");
                return ExitCode::FAILURE;
            }
        }
    }
    ExitCode::SUCCESS
}
