//! Times the proved writer, through its static library, beside two others: its own source without the contracts, compiled by rustc, and a writer
//! written for Rust.
//!
//! `write` compares the writers on some tables, then times them. `write calls proved|same|rust BYTES TIMES` only makes so many calls of one writer
//! with the table of so many bytes, and prints the entries of a call: a profiler is run over that.

#[path = "plain/description.rs"]
mod description;
#[allow(dead_code)] // the check, which is timed by itself
#[path = "../tests/src/library.rs"]
mod library;
mod readings;
#[allow(dead_code)] // the visits, which a reader makes
mod records;
// The proved crates' source as `run.sh` writes it: not all that they offer is called here, and some parameters are for a contract alone.
#[allow(dead_code, unused_variables)]
#[path = "../target/bench/same"]
mod same {
    pub mod bits;
    pub mod description;
    pub mod writer;
    pub mod writing;
}
#[path = "plain/writer.rs"]
mod writer;

use library::Written;
use records::{best_of, fields, outcome, Record};
use same::writing::Refused;
use std::hint::black_box;

type Write = fn(&[u8], &[u32], usize, &mut [u8]) -> Written;

fn same_source(desc: &[u8], values: &[u32], count: usize, buffer: &mut [u8]) -> Written {
    let refused = |refusal, node| Written { refusal, node, bits: 0 };
    match same::writer::write(desc, values, count, buffer) {
        Ok(bits) => Written { refusal: 0, node: 0, bits },
        Err(Refused::BadDescription(r)) => refused(r.number().into(), r.node().into()),
        Err(Refused::NotWritable) => refused(14, 0),
        Err(Refused::WrongTable) => refused(15, 0),
        Err(Refused::NoSpace) => refused(16, 0),
    }
}

/// The proved writer, its own source compiled by rustc, and the one written for Rust.
const WRITERS: [(&str, Write); 3] = [("proved", library::write), ("same", same_source), ("rust", writer::write)];

/// The longest export that is written back: 2,047 intervals. With three bytes more two elements have errors, the interval that is cut and one that
/// finds too few bits after it; each number is written in its width, and the 8,196 bytes that this makes are refused 16.
const EXPORT_BYTES: usize = 8188;

/// What all writers leave in a buffer that held other bytes before.
fn written(desc: &[u8], values: &[u32], count: usize, length: usize) -> (Written, Vec<u8>) {
    let [ours, others @ ..] = WRITERS.map(|(name, write)| {
        let mut buffer = vec![0xAA; length];
        (name, (write(desc, values, count, &mut buffer), buffer))
    });
    for (name, other) in others {
        let case = || format!("proved and {name}, {desc:02X?}, {count} entries of {} words, a buffer of {length}", values.len());
        assert_eq!(ours.1 .0, other.0, "the answers differ: {}", case());
        assert!(ours.1 == other, "the bytes differ: {}", case());
    }
    ours.1
}

/// A table as it was read, with a word too few, and with the nodes and numbers of its first entries changed.
fn changed(values: &[u32]) -> Vec<Vec<u32>> {
    let mut tables = vec![values.to_vec(), values[..values.len().saturating_sub(1)].to_vec()];
    for at in (0..values.len().min(32)).filter(|at| at % 4 < 2) {
        for change in [1, 0x80, 0x8000, 0x8000_0000, 0xFFFF_FF00, 0xFFFF_FFFF] {
            let mut other = values.to_vec();
            other[at] ^= change;
            tables.push(other);
        }
    }
    tables
}

/// An input's bits from 0 to this end, "padded with zero bits to a byte".
fn padded(input: &[u8], end: u32) -> Vec<u8> {
    let length = end.div_ceil(8);
    let mut bytes = input[..length as usize].to_vec();
    if let Some(last) = bytes.last_mut() {
        *last &= 0xFF << (8 * length - end);
    }
    bytes
}

/// Returns how many calls were compared. What was read with no error at the root has to be written back as it stood.
fn compare_all() -> usize {
    let mut calls = 0;
    for (desc, input) in readings::all() {
        let (answer, values, descriptors) = outcome(library::read, &desc, &input, 4 * 65_535, 4 * 65_535);
        let (count, length) = (answer.count as usize, answer.end.div_ceil(8) as usize);
        for table in changed(&values[..4 * count]) {
            for length in [0, length.saturating_sub(1), length, length + 5, 8191, 8192] {
                written(&desc, &table, count, length);
                calls += 1;
            }
        }
        let (back, bytes) = written(&desc, &values, count, length);
        if answer.refusal == 0 && descriptors[3] == 0 && back.refusal != 14 {
            assert_eq!(back, Written { refusal: 0, node: 0, bits: answer.end }, "{desc:02X?} over {input:02X?}");
            assert_eq!(bytes, padded(&input, answer.end), "{desc:02X?} over {input:02X?}");
        }
    }
    calls
}

/// A record's table, written back into a buffer that it fills.
struct Back {
    record: Record,
    buffer: Vec<u8>,
}

impl Back {
    fn new(mut record: Record) -> Back {
        record.call(library::read);
        let (values, descriptors) = record.tables();
        assert_eq!(descriptors[3], 0, "the record has errors");
        let (answer, buffer) = written(&record.desc, values, record.entries, record.input.len());
        assert_eq!(answer, Written { refusal: 0, node: 0, bits: 8 * record.input.len() as u32 }, "not all is written");
        assert!(buffer == record.input, "other bytes are written than were read");
        Back { record, buffer }
    }

    fn call(&mut self, write: Write) -> Written {
        let (desc, values, count) = (&self.record.desc, self.record.tables().0, self.record.entries);
        black_box(write(black_box(desc), black_box(values), black_box(count), black_box(&mut self.buffer)))
    }
}

/// What a call costs that writes this record back, and what an entry of its table.
fn time_calls(nodes: usize, record: Record) {
    let (bytes, entries, turns) = (record.input.len(), record.entries, record.turns());
    let mut back = Back::new(record);
    let took = best_of(20_000, WRITERS.map(|_| turns), |which| {
        back.call(WRITERS[which].1);
    });
    let ([a, b, c], [ours, same, plain]) = (took, took.map(|took| took / entries as f64));
    print!("{nodes:>5}  {bytes:>12}  {entries:>7}  {a:>6.0} ns  {b:>8.0} ns  {c:>6.0} ns  ");
    println!("{ours:>6.2} ns  {same:>8.2} ns  {plain:>6.2} ns  {:>9.3}  {:>8.3}", a / b, a / c);
}

fn time_all() {
    println!("what writing back costs, a call and an entry, and the proved writer's time divided by the other's");
    let writers = format!("{:>9}  {:>11}  {:>9}", "", "its source", "written");
    println!("{:>5}  {:>12}  {:>7}  {writers}  {writers}  {:>9}  {:>8}", "", "", "", "ratio to", "ratio to");
    let writers = format!("{:>9}  {:>11}  {:>9}", "proved", "under rustc", "for Rust");
    println!("nodes  record bytes  entries  {writers}  {writers}  {:>9}  {:>8}", "source", "for Rust");
    for length in [80, 800, EXPORT_BYTES] {
        time_calls(8, Record::of_intervals(length));
    }
    for widths in [&[8; 1][..], &[8; 31], &[1, 31, 7, 12, 24, 5]] {
        let length = widths.iter().map(|&width| usize::from(width)).sum::<usize>() / 8;
        time_calls(2 * widths.len() + 2, Record::new(fields(widths), vec![0x5A; 8191 / length * length]));
    }
}

fn main() {
    let args: Vec<String> = std::env::args().skip(1).collect();
    let words: Vec<&str> = args.iter().map(String::as_str).collect();
    match words[..] {
        [] => {
            println!("{} writings are the same, answers and bytes", compare_all());
            time_all();
        }
        ["calls", which, length, times] => {
            let (_, write) = WRITERS.into_iter().find(|(name, _)| *name == which).expect("a writer's name");
            let number = |word: &str| word.parse::<usize>().expect("a number");
            let mut back = Back::new(Record::of_intervals(number(length)));
            for _ in 0..number(times) {
                back.call(write);
            }
            println!("{}", back.record.entries);
        }
        _ => panic!("use: write, or: write calls proved|same|rust BYTES TIMES"),
    }
}
