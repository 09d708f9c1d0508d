//! The proved code of the static library `solver_c` beside the independent program, over the same cards and in one process.
//!
//!   target/both NAME=FILE..
//!
//! docs/BENCH.md has the commands that build it, with the library of another state too where `--cfg before` is given. Every text and the 64 bits of
//! every smallest pivot must be the same, in each round. A time is the processor time of one round over all cards of a file. Of times, and of the
//! ratios of the proved side's time to another's in a round, the median counts.
#![allow(unexpected_cfgs)] // `before` is given by hand

mod card;
mod cards;
mod exchange;
mod job;
mod plan;
mod proved;
mod walk;
mod whole;

use std::process::ExitCode;

const ROUNDS: usize = 7;

/// As C has it on Linux.
#[repr(C)]
struct Time {
    seconds: i64,
    nanoseconds: i64,
}

const PROCESSOR_TIME: i32 = 2;

unsafe extern "C" {
    fn clock_gettime(clock: i32, time: *mut Time) -> i32;
}

/// Seconds of processor time that the process has had.
fn seconds() -> f64 {
    let mut time = Time { seconds: 0, nanoseconds: 0 };
    // SAFETY: the place is borrowed for the call, and the declarations are C's.
    let failed = unsafe { clock_gettime(PROCESSOR_TIME, &mut time) };
    assert_eq!(failed, 0, "there is no clock");
    time.seconds as f64 + time.nanoseconds as f64 / 1e9
}

/// What was told of all cards: the texts in a row, and of each card where its text ends and the pivot's bits, if its job was solved.
#[derive(Default)]
struct Told {
    text: Vec<u8>,
    each: Vec<(usize, Option<u64>)>,
}

impl Told {
    /// Shows every card, and says how long that took.
    fn by(show: impl Fn(&[u8], &mut Vec<u8>) -> Option<u64>, cards: &[&[u8]]) -> (f64, Told) {
        let mut told = Told::default();
        let before = seconds();
        for card in cards {
            let pivot = show(card, &mut told.text);
            told.each.push((told.text.len(), pivot));
        }
        (seconds() - before, told)
    }

    /// The first card of which the other tells something else.
    fn first_other(&self, other: &Told) -> Option<usize> {
        let mut start = 0;
        self.each.iter().zip(&other.each).position(|(a, b)| {
            let same = a == b && self.text[start..a.0] == other.text[start..b.0];
            start = a.0;
            !same
        })
    }

    fn solved(&self) -> usize {
        self.each.iter().filter(|(_, pivot)| pivot.is_some()).count()
    }

    /// The sum of the numbers in the lines that begin with a word.
    fn sum(&self, word: &str) -> u64 {
        let text = String::from_utf8_lossy(&self.text);
        let counts = text.lines().filter_map(|line| line.strip_prefix(word)?.split(' ').nth(1)?.parse::<u64>().ok());
        counts.sum()
    }
}

/// The independent program's answer, in the form of the proved one's.
fn other(card: &[u8], text: &mut Vec<u8>) -> Option<u64> {
    whole::show(card, text).expect("a list of bytes takes all").map(f64::to_bits)
}

type Show = fn(&[u8], &mut Vec<u8>) -> Option<u64>;

/// The proved side first, and what it is compared with.
const SIDES: &[(&str, Show)] = &[
    ("proved", proved::show),
    ("other", other),
    #[cfg(before)]
    ("before", proved::show_before),
];

/// The time of each side, and what the first told.
struct Round {
    times: Vec<f64>,
    told: Told,
}

/// Runs all sides over all cards, if they agree.
fn round(cards: &[&[u8]]) -> Result<Round, String> {
    let mut sides = SIDES.iter().map(|(_, show)| Told::by(show, cards));
    let (time, told) = sides.next().expect("there is a side");
    let mut times = vec![time];
    for (time, others) in sides {
        if let Some(at) = told.first_other(&others) {
            return Err(format!("two sides differ at card {at}"));
        }
        times.push(time);
    }
    Ok(Round { times, told })
}

fn median(numbers: impl Iterator<Item = f64>) -> f64 {
    let mut numbers: Vec<f64> = numbers.collect();
    numbers.sort_by(f64::total_cmp);
    numbers[numbers.len() / 2]
}

fn row(name: &str, cards: &[&[u8]]) -> Result<String, String> {
    let rounds = (0..ROUNDS).map(|_| round(cards)).collect::<Result<Vec<_>, _>>()?;
    let told = &rounds[0].told;
    let (solved, steps, moves) = (told.solved(), told.sum("exchange"), told.sum("moves"));
    let refused = cards.len() - solved;
    let mut row = format!("| {name} | {solved} | {refused} | {steps} | {moves} |");
    for side in 0..SIDES.len() {
        row += &format!(" {:.3} |", median(rounds.iter().map(|r| r.times[side])));
    }
    for side in 1..SIDES.len() {
        row += &format!(" {:.2} |", median(rounds.iter().map(|r| r.times[0] / r.times[side])));
    }
    Ok(row)
}

/// The table's first line, and the one below it.
fn head() -> String {
    let times = SIDES.iter().map(|(name, _)| format!("{name}, s"));
    let ratios = SIDES[1..].iter().map(|(name, _)| format!("of {name}"));
    let cells: Vec<String> = ["cards", "solved", "refused", "steps", "moves"].map(String::from).into_iter().chain(times).chain(ratios).collect();
    format!("| {} |\n{}|", cells.join(" | "), "|---".repeat(cells.len()))
}

fn compare(argument: &str) -> Result<String, String> {
    let (name, path) = argument.split_once('=').ok_or("NAME=FILE is wanted")?;
    let bytes = std::fs::read(path).map_err(|e| format!("{path}: {e}"))?;
    row(name, &cards::of(&bytes).collect::<Vec<_>>()).map_err(|why| format!("{name}: {why}"))
}

fn main() -> ExitCode {
    println!("{}", head());
    for argument in std::env::args().skip(1) {
        match compare(&argument) {
            Ok(line) => println!("{line}"),
            Err(why) => {
                eprintln!("{why}");
                return ExitCode::FAILURE;
            }
        }
    }
    ExitCode::SUCCESS
}
