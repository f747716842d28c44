//! What the tables reached of the writer: each refusal by each reason for it, alone and where a later one would be given, and each shape of what is
//! written.

use crate::description::{check, Node};
use crate::tables::Table;
use crate::writing::{Field, Written, MOST_WRITTEN};

/// A name, and whether a table reached what it says.
type Name = (&'static str, fn(&Facts) -> bool);

const SUCCESSES: [Name; 12] = [
    ("nothing written: a count of 0", |f| f.refusal == 0 && f.table.count == 0),
    ("nothing written: entries of other kinds alone", |f| f.refusal == 0 && f.table.count > 0 && f.bits == 0),
    ("written: entries after the count", |f| f.written() && f.held() > f.table.count),
    ("written: a length that is no multiple of 4", |f| f.written() && f.table.values.len() % 4 != 0),
    ("written: more than 65,535 entries", |f| f.written() && f.table.count > 65_535),
    ("written: bytes after them", |f| f.written() && f.table.room > f.bytes()),
    ("written: no byte after them", |f| f.written() && f.table.room == f.bytes()),
    ("written: padding", |f| f.written() && f.bits % 8 != 0),
    ("written: no padding", |f| f.written() && f.bits % 8 == 0),
    ("written: 8,191 bytes, the most", |f| f.written() && f.bytes() == MOST_WRITTEN),
    ("written: a number that failed, as zero bits", |f| f.written() && f.failed),
    ("written: details and sizes that no reading gives", |f| f.written() && f.odd),
];

/// Each with one reason for it and no other; all but 11, which no description reaches.
const REFUSALS: [Name; 19] = [
    ("refused 1", |f| f.refusal == 1),
    ("refused 2", |f| f.refusal == 2),
    ("refused 3", |f| f.refusal == 3),
    ("refused 4", |f| f.refusal == 4),
    ("refused 5", |f| f.refusal == 5),
    ("refused 6", |f| f.refusal == 6),
    ("refused 7", |f| f.refusal == 7),
    ("refused 8", |f| f.refusal == 8),
    ("refused 9", |f| f.refusal == 9),
    ("refused 10", |f| f.refusal == 10),
    ("refused 14: both alone", |f| f.refusal == 14 && f.kinds == [true, false, false]),
    ("refused 14: absorb alone", |f| f.refusal == 14 && f.kinds == [false, true, false]),
    ("refused 14: scan alone", |f| f.refusal == 14 && f.kinds == [false, false, true]),
    ("refused 15: the count alone", |f| f.refusal == 15 && f.reasons == [true, false, false, false]),
    ("refused 15: a node number alone", |f| f.refusal == 15 && f.reasons == [false, true, false, false]),
    ("refused 15: a number of bits alone", |f| f.refusal == 15 && f.reasons == [false, false, true, false]),
    ("refused 15: a signed number alone", |f| f.refusal == 15 && f.reasons == [false, false, false, true]),
    ("refused 16: the buffer alone", |f| f.refusal == 16 && f.buffer_short()),
    ("refused 16: 8,191 bytes alone", |f| f.refusal == 16 && f.too_many()),
];

/// Where more than one refusal is near: the first in their order is given, and each begins just where it should.
const ORDERS: [Name; 9] = [
    ("refused 1 to 10 where 15 would be given", |f| (1..=10).contains(&f.refusal) && f.fifteen()),
    ("refused 14 where 15 would be given", |f| f.refusal == 14 && f.fifteen()),
    ("refused 14 where 16 would be given", |f| f.refusal == 14 && !f.fifteen() && (f.buffer_short() || f.too_many())),
    ("refused 15 where 16 would be given for the buffer", |f| f.late() && f.buffer_short()),
    ("refused 15 where 16 would be given for 8,191 bytes", |f| f.late() && f.too_many()),
    ("refused 15: a count whose words are no number of 64 bits", |f| f.refusal == 15 && f.table.count > usize::MAX / 4),
    ("refused 15: the last entry alone", |f| f.late() && f.first_bad == Some(f.table.count - 1)),
    ("refused 16: one byte less than is wanted", |f| f.refusal == 16 && f.bytes() <= MOST_WRITTEN && f.bytes() == f.table.room + 1),
    ("refused 16: 8,192 bytes with room for them", |f| f.refusal == 16 && f.bytes() == 8192 && f.table.room >= 8192),
];

fn all() -> impl Iterator<Item = Name> {
    SUCCESSES.into_iter().chain(REFUSALS).chain(ORDERS)
}

/// Everything that tables have to reach.
pub fn names() -> impl Iterator<Item = &'static str> {
    all().map(|(name, _)| name)
}

/// What this table reached.
pub fn of(table: &Table, written: &Written) -> Vec<&'static str> {
    let facts = Facts::new(table, written.refusal);
    all().filter(|(_, reached)| reached(&facts)).map(|(name, _)| name).collect()
}

struct Facts<'a> {
    table: &'a Table,
    refusal: u32,
    /// Whether the description has both, absorb, scan.
    kinds: [bool; 3],
    /// Whether 15 is given for the count, a node number, a number of bits, a signed number.
    reasons: [bool; 4],
    /// The first entry for which 15 is given.
    first_bad: Option<usize>,
    /// The bits of the entries before that one, or of all.
    bits: usize,
    /// Whether an entry is the one of a failed read: it tells of missing bits.
    failed: bool,
    /// Whether a number's size is not 1 and its detail is more than bits can be missing.
    odd: bool,
}

impl Facts<'_> {
    fn new(table: &Table, refusal: u32) -> Facts<'_> {
        let nodes = check(&table.desc).unwrap_or_default();
        let has = |test: fn(&Node) -> bool| nodes.iter().any(test);
        let kinds = [has(|n| matches!(n, Node::Both(..))), has(|n| matches!(n, Node::Absorb(_))), has(|n| matches!(n, Node::Scan(_)))];
        let mut facts = Facts { table, refusal, kinds, reasons: [false; 4], first_bad: None, bits: 0, failed: false, odd: false };
        facts.reasons[0] = table.count > facts.held();
        for (i, entry) in table.values.chunks_exact(4).take(table.count).enumerate() {
            facts.entry(i, entry, nodes.get(entry[0] as usize));
        }
        facts
    }

    fn entry(&mut self, i: usize, entry: &[u32], node: Option<&Node>) {
        let reason = match node.map(Field::of) {
            None => 1,
            Some(Some(field)) if !field.has(entry[1]) => 2 + field.signed as usize,
            Some(Some(field)) => {
                self.failed |= entry[1] == 0 && (1..=32).contains(&entry[2]);
                self.odd |= entry[2] > 32 && entry[3] != 1;
                self.bits += if self.first_bad.is_none() { field.width as usize } else { 0 };
                return;
            }
            Some(None) => return,
        };
        self.reasons[reason] = true;
        self.first_bad = self.first_bad.or(Some(i));
    }

    fn held(&self) -> usize {
        self.table.values.len() / 4
    }

    fn bytes(&self) -> usize {
        self.bits.div_ceil(8)
    }

    fn written(&self) -> bool {
        self.refusal == 0 && self.bits > 0
    }

    /// The buffer alone is too short.
    fn buffer_short(&self) -> bool {
        self.bytes() > self.table.room && self.bytes() <= MOST_WRITTEN
    }

    /// There are too many bytes, though the buffer has room for them.
    fn too_many(&self) -> bool {
        self.bytes() > MOST_WRITTEN && self.bytes() <= self.table.room
    }

    fn fifteen(&self) -> bool {
        self.reasons.contains(&true)
    }

    /// 15 is given for an entry, and not for the count.
    fn late(&self) -> bool {
        self.refusal == 15 && !self.reasons[0]
    }
}
