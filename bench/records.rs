//! What is read and written back: exports of intervals, and records of more and more fields.

use crate::library::{read as proved, Answer};
use std::hint::black_box;
use std::time::Instant;

pub type Read = fn(&[u8], &[u8], &mut [u32], &mut [u32]) -> Answer;

/// Two counters of 16 bits and the use between them, modulo 2^16, over and over: a sequence with a unit as its separator, a bottom as its
/// terminator and -1 as its operand, so that it ends with the input.
pub const INTERVALS: &str = "02 10 02 10 0A 10 01 01 00 00 00 00 01 00 00 00 01 05 01 02 05 00 03 00 01 09 04 05 06 00 FF FF FF FF";

pub fn bytes(hex: &str) -> Vec<u8> {
    hex.split_whitespace().map(|byte| u8::from_str_radix(byte, 16).expect("two hex digits")).collect()
}

/// So many bytes of intervals, one after another: each begins where the one before ended, and the counter turns now and then.
pub fn intervals(length: usize) -> Vec<u8> {
    let counters = (0u32..).map(|i| 65_530 + 613 * i + i * i % 97);
    counters.flat_map(|c| [c as u16, (c + 10) as u16]).flat_map(u16::to_be_bytes).take(length).collect()
}

/// Fields of these widths, joined by thens from the last to the first, over and over as the intervals are: 2 * fields + 2 nodes.
pub fn fields(widths: &[u8]) -> Vec<u8> {
    let mut desc: Vec<u8> = widths.iter().flat_map(|&width| [2, width]).collect();
    let fields = widths.len() as u8;
    let mut record = fields - 1;
    for field in (0..fields - 1).rev() {
        desc.extend([4, field, record]);
        record = if record < fields { fields } else { record + 1 };
    }
    let unit = 2 * fields - 1;
    desc.extend([0, 1, 9, record, unit, unit + 1, 0, 255, 255, 255, 255]);
    desc
}

/// What a call leaves in tables that held other words before.
pub fn outcome(read: Read, desc: &[u8], input: &[u8], values: usize, descriptors: usize) -> (Answer, Vec<u32>, Vec<u32>) {
    let (mut v, mut d) = (vec![0xAAAA_AAAA; values], vec![0x5555_5555; descriptors]);
    (read(desc, input, &mut v, &mut d), v, d)
}

/// A sequence over an input, and tables that its entries fill.
pub struct Record {
    pub desc: Vec<u8>,
    pub input: Vec<u8>,
    pub entries: usize,
    /// The entries, and the terminator once in each round: it is looked at and leaves none.
    pub visits: usize,
    values: Vec<u32>,
    descriptors: Vec<u32>,
}

impl Record {
    pub fn new(desc: Vec<u8>, input: Vec<u8>) -> Record {
        let (answer, values, _) = outcome(proved, &desc, &input, 4 * 65_535, 4 * 65_535);
        assert_eq!(answer.refusal, 0, "the record is refused");
        let (entries, elements) = (answer.count as usize, values[2] as usize);
        Record { desc, input, entries, visits: entries + elements, values: vec![0; 4 * entries], descriptors: vec![0; 4 * entries] }
    }

    pub fn of_intervals(length: usize) -> Record {
        Record::new(bytes(INTERVALS), intervals(length))
    }

    pub fn call(&mut self, read: Read) -> Answer {
        black_box(read(black_box(&self.desc), black_box(&self.input), black_box(&mut self.values), black_box(&mut self.descriptors)))
    }

    /// The tables as the last call left them.
    pub fn tables(&self) -> (&[u32], &[u32]) {
        (&self.values, &self.descriptors)
    }

    /// How many calls make a round that is long enough to be timed.
    pub fn turns(&self) -> usize {
        6_000usize.div_ceil(self.entries)
    }
}

/// Nanoseconds a turn of each, the best of some rounds: what disturbs a round only adds. They take turns, so that it meets all.
pub fn best_of<const N: usize>(rounds: usize, turns: [usize; N], mut turn: impl FnMut(usize)) -> [f64; N] {
    let mut best = [f64::INFINITY; N];
    for _ in 0..rounds {
        for which in 0..N {
            let start = Instant::now();
            for _ in 0..turns[which] {
                turn(which);
            }
            best[which] = best[which].min(start.elapsed().as_nanos() as f64 / turns[which] as f64);
        }
    }
    best
}
