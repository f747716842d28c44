//! Compares the compiled reader with an independent one, written from document 01, on cases from a seed; and the compiled writer with an independent
//! one, written from request 2 of document 02, on tables made from those cases.
//!
//! `tests [CASES [SEED]]`: 200,000 cases and seed 1, if nothing else is said. It prints what was reached, and fails where a case differs or where
//! something was never reached. Then it plants faults in copies of the reader's and the writer's answers, and fails where one is not found.
//! `tests CASES SEED memory` is for a run, of few cases, in which a tool watches memory: no guards stand beside the tables, and not all need be reached.

mod back;
mod compare;
mod compiled;
mod damage;
mod description;
mod faults;
mod generate;
mod guarded;
mod library;
mod random;
mod reached;
mod reading;
mod round_trip;
mod shrink;
mod tables;
mod writer_faults;
mod writer_reached;
mod writing;
mod written;

use back::Back;
use generate::Case;
use random::Random;
use reached::Reached;
use std::process::ExitCode;
use std::time::{Duration, Instant};

const CASES: u64 = 200_000;
const SEED: u64 = 1;

fn main() -> ExitCode {
    let args: Vec<String> = std::env::args().skip(1).collect();
    let number = |at: usize, otherwise: u64| args.get(at).map_or(Some(otherwise), |word| word.parse().ok());
    let memory = args.get(2).is_some_and(|word| word == "memory");
    let (Some(cases), Some(seed), true) = (number(0, CASES), number(1, SEED), args.len() <= 2 || args.len() == 3 && memory) else {
        eprintln!("use: tests [CASES [SEED [memory]]], both whole numbers");
        return ExitCode::from(2);
    };
    match run(cases, seed, memory) {
        Ok(()) => ExitCode::SUCCESS,
        Err(words) => {
            eprintln!("tests: {words}");
            ExitCode::FAILURE
        }
    }
}

fn run(cases: u64, seed: u64, memory: bool) -> Result<(), String> {
    let reader: compare::Reader = if memory { &compare::unguarded } else { &compare::compiled };
    let writer: written::Writer = if memory { &written::unguarded } else { &written::compiled };
    let mut random = Random::new(seed);
    let mut back = Back::new(writer, seed);
    let mut reached = Reached::new();
    let (mut compared, mut skipped, mut progress) = (0, 0, Progress::new(cases));
    let drawn = std::iter::repeat_with(|| generate::case(&mut random));
    for case in generate::cut_everywhere().into_iter().chain([generate::longest()]).chain(drawn) {
        if compared == cases {
            break;
        }
        progress.show(compared);
        let Ok(expected) = compare::expected(&case) else {
            skipped += 1;
            continue;
        };
        if compare::difference(&case, &expected, reader).is_some() {
            return Err(told(&case, reader));
        }
        reached.case(&case, &expected);
        back.case(&case, &expected, &mut reached)?;
        compared += 1;
    }
    println!("{compared} cases from seed {seed} are equal in every word; {skipped} more would have taken too long");
    println!("{back}");
    println!("reached, so many times:");
    reached.print();
    let missing = reached.missing();
    if !memory && !missing.is_empty() {
        return Err(format!("never reached, so that nothing is shown of it: {}", missing.join("; ")));
    }
    faults::find_all(&mut random)?;
    writer_faults::find_all(&mut random)
}

/// A failing case, made small, in words and as input of the listing program.
fn told(case: &Case, reader: compare::Reader) -> String {
    let differs = |case: &Case| compare::expected(case).ok().and_then(|expected| compare::difference(case, &expected, reader));
    let small = shrink::shrink(case, &|case| differs(case).is_some());
    let words = differs(&small).expect("what was shrunk still differs");
    format!(
        "{words}\n  tables of {} and {} words; as input of the listing program, in hex (bash listing/bytes.sh FILE | target/bin/listing):\n  {}",
        small.value_words,
        small.descriptor_words,
        hex(&[&(small.desc.len() as u16).to_be_bytes(), &small.desc[..], &small.input].concat())
    )
}

fn hex(bytes: &[u8]) -> String {
    bytes.iter().map(|byte| format!("{byte:02X}")).collect::<Vec<_>>().join(" ")
}

/// A line on standard error every five seconds.
struct Progress {
    cases: u64,
    begun: Instant,
    shown: Instant,
}

impl Progress {
    fn new(cases: u64) -> Progress {
        Progress { cases, begun: Instant::now(), shown: Instant::now() }
    }

    fn show(&mut self, done: u64) {
        if self.shown.elapsed() >= Duration::from_secs(5) {
            self.shown = Instant::now();
            eprintln!("{done} of {} cases after {} s", self.cases, self.begun.elapsed().as_secs());
        }
    }
}
