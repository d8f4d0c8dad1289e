//! Measures the taking of turns among sixteen stations: announcements and turns, one call for each. A call takes too little time for the clock, so
//! that each time is that of all calls of a list of events, and it is not divided by their number.
//!
//! Each repetition has a fresh state to begin with and, where stations are chosen, a fresh list. After it the answers of library, Rust and C are
//! compared, one by one, and the states that they leave. Those of an earlier version of the library are compared too: if they differ, the two do
//! not search for the same stations, and their times do not compare.

use crate::{data, library, rust, turn};
use std::time::{Duration, Instant};

/// One line of the table: what is measured, how often, what makes the events of a repetition and answers the state to begin with, and whether
/// some stations are refused and some turns name nobody; where it is not said, none may be.
pub struct Case {
    pub name: &'static str,
    pub title: &'static str,
    pub repetitions: u64,
    make: fn(u64, &mut Vec<u8>) -> State,
    refusals: bool,
}

pub const CASES: [Case; 3] = [
    Case {
        name: "turns_never_quiet",
        title: "take 4096 turns, one station is never quiet",
        repetitions: 2000,
        make: make_never_quiet,
        refusals: false,
    },
    Case {
        name: "turns_all_wait",
        title: "take 4096 turns, all stations wait",
        repetitions: 2000,
        make: make_all_wait,
        refusals: false,
    },
    Case {
        name: "turns_random",
        title: "take 4096 turns, stations at random",
        repetitions: 2000,
        make: make_random,
        refusals: true,
    },
];

const TURNS: usize = 4096;

/// This event is a turn; any other number is that of a station that announces.
const TURN: u8 = u8::MAX;

/// The station that is never quiet.
const LOUD: u8 = 7;

/// Stations at random are below this number, so that a third of them are refused with 17.
const NUMBERS: u64 = 24;

/// Where the number of a repetition's first state is among those of the repetition: no event takes it.
const FIRST_STATE: u64 = 1 << 31;

/// Who waits, and who was served last. No state lies across two lines of the cache, whoever has it.
#[derive(Clone, Copy, Debug, PartialEq)]
#[repr(align(32))]
struct State {
    waiting: [bool; rust::STATIONS],
    last: usize,
}

/// The same with the marks as the bits of a word.
#[repr(align(32))]
struct Bits {
    waiting: u16,
    last: usize,
}

impl State {
    const NOTHING: State = State {
        waiting: [false; rust::STATIONS],
        last: 0,
    };

    fn bits(&self) -> Bits {
        let marks = self.waiting.iter().enumerate();
        Bits {
            waiting: marks.fold(0, |all, (k, &mark)| all | u16::from(mark) << k),
            last: self.last,
        }
    }
}

impl Bits {
    fn state(&self) -> State {
        State {
            waiting: std::array::from_fn(|k| self.waiting >> k & 1 == 1),
            last: self.last,
        }
    }
}

/// One station announces before each turn, and nobody else waits: each search but the first goes round all sixteen. In a third of the repetitions
/// the number of the station served last is above 15 at first.
fn make_never_quiet(repetition: u64, events: &mut Vec<u8>) -> State {
    for _ in 0..TURNS {
        events.extend([LOUD, TURN]);
    }
    State {
        last: (data::number(repetition, FIRST_STATE) % NUMBERS) as usize,
        ..State::NOTHING
    }
}

/// All wait but the station served last, and each announces again before the next turn: a search looks at one station.
fn make_all_wait(repetition: u64, events: &mut Vec<u8>) -> State {
    let last = data::number(repetition, FIRST_STATE) as usize % rust::STATIONS;
    for place in last..last + TURNS {
        events.extend([(place % rust::STATIONS) as u8, TURN]);
    }
    State {
        waiting: std::array::from_fn(|k| k != last),
        last,
    }
}

/// Before each turn two stations announce, each chosen anew, and any may wait at first. With one before each turn no more than those of the start
/// would ever wait.
fn make_random(repetition: u64, events: &mut Vec<u8>) -> State {
    for place in 0..TURNS as u64 {
        let chosen = |place| (data::number(repetition, place) % NUMBERS) as u8;
        events.extend([chosen(2 * place), chosen(2 * place + 1), TURN]);
    }
    let first = data::number(repetition, FIRST_STATE);
    State {
        waiting: std::array::from_fn(|k| first >> k & 1 == 1),
        last: ((first >> 32) % NUMBERS) as usize,
    }
}

/// What is answered to each event, and the state that is left.
struct Played {
    answers: Vec<i8>,
    state: State,
}

/// Who plays a list of events from a state on, and how: the time, or what is wrong.
type Player = (
    &'static str,
    fn(&State, &[u8], &mut Played) -> Result<Duration, String>,
);

const LIBRARY: Player = ("the library", |start, events, to| {
    play_plain(library::announce, library::turn, start, events, to)
});

const RUST: Player = ("Rust", |start, events, to| {
    play_plain(rust::announce, rust::turn, start, events, to)
});

const C: Player = ("C", |start, events, to| {
    play_plain(turn::announce, turn::take, start, events, to)
});

const IN_PLACE: Player = ("Rust in place", |start, events, to| {
    let announce = |waiting: &mut _, _: &mut _, station| rust::announce_in_place(waiting, station);
    play_plain(announce, rust::turn_in_place, start, events, to)
});

const BITS: Player = ("Rust with bits", |start, events, to| {
    let announce = |state: &mut Bits, station| rust::announce_bits(&mut state.waiting, station);
    let turn = |state: &mut Bits| rust::turn_bits(&mut state.waiting, &mut state.last);
    let mut state = start.bits();
    let time = play(announce, turn, &mut state, events, &mut to.answers)?;
    to.state = state.state();
    Ok(time)
});

/// The earlier version of the library, if there is one that takes turns. What has the one function has the other.
const BEFORE: Option<Player> = earlier!(
    "turn",
    ("the earlier version", |start, events, to| {
        play_plain(before::announce, before::turn, start, events, to)
    })
);

/// Plays the events in place. Each answer is kept as one byte, so that the answers stay in the cache nearest to the processor: a copy that waits for
/// a store waits for those before it too. As a signed number of 64 bits each answer that there is fits into a byte.
fn play<S>(
    announce: impl Fn(&mut S, usize) -> usize,
    turn: impl Fn(&mut S) -> usize,
    state: &mut S,
    events: &[u8],
    answers: &mut Vec<i8>,
) -> Result<Duration, String> {
    answers.clear();
    answers.resize(events.len(), i8::MIN);
    let mut fit = true;
    let start = Instant::now();
    for (byte, &event) in answers.iter_mut().zip(events) {
        let answer = match event {
            TURN => turn(state),
            station => announce(state, usize::from(station)),
        };
        *byte = answer as i8;
        fit &= *byte as usize == answer;
    }
    let time = start.elapsed();
    if fit {
        Ok(time)
    } else {
        Err("gives an answer that there is not".to_string())
    }
}

/// The same with a state that is sixteen marks and a number.
fn play_plain(
    announce: impl Fn(&mut [bool; rust::STATIONS], &mut usize, usize) -> usize,
    turn: impl Fn(&mut [bool; rust::STATIONS], &mut usize) -> usize,
    start: &State,
    events: &[u8],
    to: &mut Played,
) -> Result<Duration, String> {
    let announce =
        |state: &mut State, station| announce(&mut state.waiting, &mut state.last, station);
    let turn = |state: &mut State| turn(&mut state.waiting, &mut state.last);
    to.state = *start;
    play(announce, turn, &mut to.state, events, &mut to.answers)
}

/// Whether an announcement is refused or a turn names nobody.
fn refused(event: u8, answer: i8) -> bool {
    match event {
        TURN => answer < 0,
        _ => answer != 0,
    }
}

/// What is wrong in what the first of some players gives, if anything is.
fn fault(case: &Case, events: &[u8], played: &Played) -> Option<String> {
    if case.refusals {
        return None;
    }
    let mut pairs = events.iter().zip(&played.answers);
    let k = pairs.position(|(&event, &answer)| refused(event, answer))?;
    Some(format!("answers event {k} by {}", played.answers[k]))
}

/// What differs first between what two players give, if anything does.
fn difference(one: &Played, other: &Played) -> Option<String> {
    let mut pairs = one.answers.iter().zip(&other.answers);
    if let Some(k) = pairs.position(|(a, b)| a != b) {
        let (a, b) = (one.answers[k], other.answers[k]);
        return Some(format!("the answer to event {k}, {a} and {b}"));
    }
    if one.state != other.state {
        return Some(format!("the state, {:?} and {:?}", one.state, other.state));
    }
    None
}

/// The least times of players for a whole list, in microseconds. They take turns in going first.
fn least_times<const N: usize>(case: &Case, players: [Player; N]) -> Result<[f64; N], String> {
    let mut events = Vec::new();
    let mut played = [(); N].map(|_| Played {
        answers: Vec::new(),
        state: State::NOTHING,
    });
    let mut least = [Duration::MAX; N];
    for repetition in 0..case.repetitions {
        let place = format!("{}, repetition {repetition}", case.name);
        events.clear();
        let start = (case.make)(repetition, &mut events);
        for order in 0..N {
            let i = (repetition as usize + order) % N;
            let (who, play) = players[i];
            let time = play(&start, &events, &mut played[i])
                .map_err(|what| format!("{place}: {who} {what}"))?;
            least[i] = least[i].min(time);
        }
        let (first, _) = players[0];
        if let Some(what) = fault(case, &events, &played[0]) {
            return Err(format!("{place}: {first} {what}"));
        }
        for ((who, _), other) in players.iter().zip(&played).skip(1) {
            if let Some(what) = difference(&played[0], other) {
                return Err(format!("{place}: {first} and {who} differ in {what}"));
            }
        }
    }
    Ok(least.map(|time| time.as_nanos() as f64 / 1000.0))
}

/// The least times of the library, of Rust and of C.
pub fn measure(case: &Case) -> Result<[f64; 3], String> {
    least_times(case, [LIBRARY, RUST, C])
}

/// The least times of the library, of Rust that changes the state where it is, and of Rust with the marks as the bits of a word.
pub fn measure_forms(case: &Case) -> Result<[f64; 3], String> {
    least_times(case, [LIBRARY, IN_PLACE, BITS])
}

/// The least times of the library and of the earlier version, if there is one that takes turns.
pub fn measure_versions(case: &Case) -> Option<Result<[f64; 2], String>> {
    Some(least_times(case, [LIBRARY, BEFORE?]))
}
