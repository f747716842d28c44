//! Round trips: a table that was read with a root of zero errors gives back the bits that it was read from. What is wanted is taken from the input, and
//! no writer is asked.

use crate::description::{check, Node};
use crate::generate::Case;
use crate::random::Random;
use crate::reading::Outcome;
use crate::tables::{another, Table};
use crate::writing::{writable, Field, Written};

/// A table to be written, and what that has to leave.
pub struct Trip {
    pub table: Table,
    pub wanted: Written,
    /// How many numbers are written.
    pub numbers: usize,
    /// Of which field a number is another than was read.
    pub replaced: Option<Field>,
}

/// The table as it was read: wanted are the input's bits from 0 to the end. None where the root has errors or the description is not writable.
pub fn whole(case: &Case, outcome: &Outcome) -> Option<Trip> {
    let nodes = check(&case.desc).ok()?;
    if outcome.refusal != 0 || !writable(&nodes) || outcome.descriptors[3] != 0 {
        return None;
    }
    let (end, count) = (outcome.end as usize, outcome.count as usize);
    let room = end.div_ceil(8) + case.rubbish as usize % 4;
    let mut bytes = vec![0; room];
    for i in 0..end {
        put(&mut bytes, i, bit(&case.input, i));
    }
    let values = outcome.values[..4 * count].to_vec();
    let table = Table { desc: case.desc.clone(), values, count, room, rubbish: case.rubbish };
    let numbers = fields(&nodes, &table).len();
    Some(Trip { table, wanted: Written { refusal: 0, node: 0, bits: outcome.end, bytes }, numbers, replaced: None })
}

/// The same with one number replaced by another of its width: what is wanted differs from the input's bits inside that number's span, and nowhere
/// else. None where no number was read.
pub fn replaced(case: &Case, outcome: &Outcome) -> Option<Trip> {
    let mut trip = whole(case, outcome)?;
    let numbers = fields(&check(&case.desc).ok()?, &trip.table);
    let &(entry, field) = numbers.get(case.rubbish as usize % numbers.len().max(1))?;
    let number = another(&mut Random::new(case.rubbish as u64), field, trip.table.values[4 * entry + 1]);
    trip.table.values[4 * entry + 1] = number;
    trip.replaced = Some(field);
    let (begin, end) = (outcome.descriptors[4 * entry], outcome.descriptors[4 * entry + 1]);
    for i in begin..end {
        put(&mut trip.wanted.bytes, i as usize, number >> (end - 1 - i) & 1 == 1);
    }
    Some(trip)
}

/// The entries of which something is written.
fn fields(nodes: &[Node], table: &Table) -> Vec<(usize, Field)> {
    let field = |entry: usize| Some((entry, Field::of(&nodes[table.values[4 * entry] as usize])?));
    (0..table.count).filter_map(field).collect()
}

/// Bit i, the most significant of each byte first.
fn bit(bytes: &[u8], i: usize) -> bool {
    bytes[i / 8] >> (7 - i % 8) & 1 == 1
}

fn put(bytes: &mut [u8], i: usize, bit: bool) {
    let mask = 0x80 >> (i % 8);
    if bit {
        bytes[i / 8] |= mask;
    } else {
        bytes[i / 8] &= !mask;
    }
}
