//! What an auditor takes from an export of intervals: every interval's numbers, and whether it is whole.

use std::fmt;

/// How many intervals are whole, whether one is cut at the end, and the sums over those that are whole: every reader and every peer has to agree.
#[derive(Clone, Copy, Default, PartialEq, Eq, Debug)]
pub struct Sums {
    pub whole: u64,
    pub cut: u64,
    pub first: u64,
    pub second: u64,
    pub used: u64,
}

impl fmt::Display for Sums {
    fn fmt(&self, f: &mut fmt::Formatter) -> fmt::Result {
        write!(f, "{} {} {} {} {}", self.whole, self.cut, self.first, self.second, self.used)
    }
}

impl Sums {
    fn add(&mut self, first: u32, second: u32, used: u32) {
        self.whole += 1;
        self.first += u64::from(first);
        self.second += u64::from(second);
        self.used += u64::from(used);
    }
}

/// The node of an interval in `records::INTERVALS`. Of its five entries the second, fourth and fifth have the two counters and the use.
const INTERVAL: u32 = 4;

/// From the tables of a reading.
pub fn from_entries(values: &[u32], descriptors: &[u32]) -> Sums {
    let mut sums = Sums::default();
    let (values, descriptors) = (values.as_chunks::<4>().0, descriptors.as_chunks::<4>().0);
    let mut at = 1;
    while at < values.len() {
        let [node, _, _, size] = values[at];
        if node == INTERVAL {
            match descriptors[at] {
                [_, _, _, 0] => sums.add(values[at + 1][1], values[at + 3][1], values[at + 4][1]),
                _ => sums.cut = 1,
            }
        }
        at += size as usize;
    }
    sums
}

/// An interval as one would keep it without a description.
#[derive(Clone, Copy, Default)]
pub struct Interval {
    first: u16,
    second: u16,
    used: u16,
    whole: bool,
}

/// The export read by hand, into as many intervals as there is room for: returns how many there are.
pub fn by_hand(stored: &[u8], intervals: &mut [Interval]) -> usize {
    let mut count = 0;
    for (bytes, interval) in stored.chunks(4).zip(intervals) {
        *interval = match *bytes {
            [a, b, c, d] => {
                let (first, second) = (u16::from_be_bytes([a, b]), u16::from_be_bytes([c, d]));
                Interval { first, second, used: second.wrapping_sub(first), whole: true }
            }
            [a, b, ..] => Interval { first: u16::from_be_bytes([a, b]), ..Interval::default() },
            _ => Interval::default(),
        };
        count += 1;
    }
    count
}

pub fn from_intervals(intervals: &[Interval]) -> Sums {
    let mut sums = Sums::default();
    for interval in intervals {
        match interval.whole {
            true => sums.add(interval.first.into(), interval.second.into(), interval.used.into()),
            false => sums.cut = 1,
        }
    }
    sums
}
