//! Times the proved reader, through its static library, beside others: its own source without the contracts, compiled by rustc; a reader written
//! for Rust; the same export read by hand; and programs of other makes.
//!
//! `read EXPORT PEERS` writes the export to that file, compares the readers on some readings, then times all; PEERS is a list as `peers.rs` has it.
//! `read calls proved|same|rust BYTES TIMES` only makes so many calls of one reader over so many bytes, and prints the entries of a call: a
//! profiler is run over that.

#[path = "plain/description.rs"]
mod description;
mod export;
#[allow(dead_code)] // the check and the writer, which are timed by themselves
#[path = "../tests/src/library.rs"]
mod library;
mod peers;
#[path = "plain/reader.rs"]
mod reader;
mod readings;
mod records;
// The proved crates' source as `run.sh` writes it: not all that they offer is called here, and some parameters are for a contract alone.
#[allow(dead_code, unused_variables)]
#[path = "../target/bench/same"]
mod same {
    pub mod bits;
    pub mod description;
    pub mod reader;
}

use export::{by_hand, from_entries, from_intervals, Interval, Sums};
use library::{read as proved, Answer};
use records::{best_of, fields, outcome, Read, Record};
use std::hint::black_box;

fn same_source(desc: &[u8], input: &[u8], values: &mut [u32], descriptors: &mut [u32]) -> Answer {
    let refused = |refusal, node| Answer { refusal, node, count: 0, end: 0 };
    match same::reader::read(desc, input, values, descriptors) {
        Ok(same::reader::Success { count, end }) => Answer { refusal: 0, node: 0, count, end },
        Err(same::reader::Refused::BadDescription(r)) => refused(r.number().into(), r.node().into()),
        Err(same::reader::Refused::InputTooLong) => refused(12, 0),
        Err(same::reader::Refused::NoRoom) => refused(13, 0),
    }
}

/// What is compared with the proved reader: its own source compiled by rustc, and the interpreter written for Rust.
const OTHERS: [(&str, Read); 2] = [("same", same_source), ("rust", reader::read)];

const EXPORT_BYTES: usize = 8191;

fn compare(desc: &[u8], input: &[u8], values: usize, descriptors: usize) {
    let ours = outcome(proved, desc, input, values, descriptors);
    for (name, read) in &OTHERS {
        let other = outcome(*read, desc, input, values, descriptors);
        let case = || format!("proved and {name}, {desc:02X?} over {} bytes, tables of {values} and {descriptors} words", input.len());
        assert_eq!(ours.0, other.0, "the answers differ: {}", case());
        assert!(ours == other, "the tables differ: {}", case());
    }
}

/// Returns how many readings were compared.
fn compare_all() -> usize {
    let readings = readings::all();
    let tables = [(4 * 70_000, 4 * 70_000), (4096, 4096), (24, 22), (20, 20), (16, 40), (3, 7), (0, 0)];
    for (desc, input) in &readings {
        for (values, descriptors) in tables {
            compare(desc, input, values, descriptors);
        }
    }
    readings.len() * tables.len()
}

/// A row of the table of ratios.
fn row(name: &str, took: f64, ours: f64) {
    println!("{name:<44} {:>12.1} us {:>10.4}", took / 1000.0, ours / took);
}

/// Every reader and every peer over one export, each giving every interval's numbers and whether it is whole.
fn time_export(file: &str, list: &str) {
    let mut record = Record::of_intervals(EXPORT_BYTES);
    std::fs::write(file, &record.input).unwrap_or_else(|error| panic!("{file} cannot be written: {error}"));
    let stored = record.input.clone();
    let mut kept = vec![Interval::default(); EXPORT_BYTES.div_ceil(4)];
    let mut sums = [Sums::default(); 4];
    let [ours, same, plain, hand] = best_of(2_000, [1, 1, 1, 100], |which| {
        let said = match which {
            0..3 => {
                record.call([proved, OTHERS[0].1, OTHERS[1].1][which]);
                let (values, descriptors) = record.tables();
                from_entries(values, descriptors)
            }
            _ => {
                let count = by_hand(black_box(&stored), black_box(&mut kept));
                from_intervals(&kept[..count])
            }
        };
        sums[which] = black_box(said);
    });
    assert!(sums.iter().all(|said| *said == sums[0]), "the sums differ: {sums:?}");
    println!("{EXPORT_BYTES} bytes of intervals, every interval's numbers and whether it is whole: {} are, {} is cut", sums[0].whole, sums[0].cut);
    println!("{:<44} {:>15} {:>10}", "", "a reading", "ratio");
    row("the proved reader", ours, ours);
    row("its own source, under rustc", same, ours);
    row("(a) the interpreter written for Rust", plain, ours);
    row("(b) Rust by hand, with no description", hand, ours);
    for peer in peers::listed(list) {
        match peer.time(file, &sums[0]) {
            Some(took) => row(&peer.name, took, ours),
            None => println!("{:<44} {:>15}", peer.name, "not installed"),
        }
    }
    println!("the ratio is the proved reader's time divided by the other's");
}

/// What a visit costs over this record.
fn time_visits(nodes: usize, mut record: Record) {
    let readers = [proved, OTHERS[0].1, OTHERS[1].1];
    let [ours, same, plain] = best_of(3_000, readers.map(|_| record.turns()), |which| {
        record.call(readers[which]);
    });
    let visit = |took: f64| took / record.visits as f64;
    let (bytes, visits) = (record.input.len(), record.visits);
    let [a, b, c] = [ours, same, plain].map(visit);
    println!("{nodes:>5}  {bytes:>11}  {visits:>6}  {a:>7.2} ns  {b:>8.2} ns  {c:>7.2} ns  {:>9.3}  {:>8.3}", ours / same, ours / plain);
}

fn time_all_visits() {
    println!("what a visit costs, and the proved reader's time divided by the other's");
    println!("{:>5}  {:>11}  {:>6}  {:>10}  {:>11}  {:>10}  {:>9}  {:>8}", "", "", "", "", "its source", "written", "ratio to", "ratio to");
    println!("nodes  input bytes  visits  {:>10}  under rustc  {:>10}  {:>9}  {:>8}", "proved", "for Rust", "source", "for Rust");
    for length in [80, 800, EXPORT_BYTES] {
        time_visits(8, Record::of_intervals(length));
    }
    for count in [1, 3, 7, 15, 31] {
        time_visits(2 * count + 2, Record::new(fields(&[8].repeat(count)), vec![0x5A; 4096]));
    }
}

fn main() {
    let args: Vec<String> = std::env::args().skip(1).collect();
    let words: Vec<&str> = args.iter().map(String::as_str).collect();
    match words[..] {
        [file, list] => {
            println!("{} readings are the same, answers and tables", compare_all());
            time_export(file, list);
            time_all_visits();
        }
        ["calls", which, length, times] => {
            let (_, read) = [("proved", proved as Read), OTHERS[0], OTHERS[1]].into_iter().find(|(name, _)| *name == which).expect("a reader's name");
            let number = |word: &str| word.parse::<usize>().expect("a number");
            let mut record = Record::of_intervals(number(length));
            for _ in 0..number(times) {
                record.call(read);
            }
            println!("{}", record.entries);
        }
        _ => panic!("use: read EXPORT PEERS, or: read calls proved|same|rust BYTES TIMES"),
    }
}
