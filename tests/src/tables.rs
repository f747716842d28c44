//! Tables to be written, made from a case: as they were read, with one number replaced by another of its width, or damaged.

use crate::description::{check, Node};
use crate::generate::Case;
use crate::random::Random;
use crate::reading::Outcome;
use crate::writing::{Field, MOST_WRITTEN};

/// One call of the writer: what is written, and how many bytes the buffer has.
#[derive(Clone)]
pub struct Table {
    pub desc: Vec<u8>,
    pub values: Vec<u32>,
    pub count: usize,
    pub room: usize,
    /// What the buffer holds before the call comes from this.
    pub rubbish: u32,
}

/// As it was read; once in two, one of its numbers is another.
pub fn as_read(random: &mut Random, case: &Case, outcome: &Outcome) -> Table {
    let mut maker = Maker::new(random, case, outcome);
    if maker.random.once_in(2) {
        maker.replace();
    }
    maker.table(case)
}

pub fn damaged(random: &mut Random, case: &Case, outcome: &Outcome) -> Table {
    let mut maker = Maker::new(random, case, outcome);
    maker.damage();
    maker.table(case)
}

/// A number of the field's width other than this one.
pub fn another(random: &mut Random, field: Field, than: u32) -> u32 {
    loop {
        let number = number(random, field);
        if number != than {
            return number;
        }
    }
}

/// A number of the field's width, often one at an end of its range.
fn number(random: &mut Random, field: Field) -> u32 {
    let spare = 32 - field.width;
    let high = match random.below(6) {
        0 => 0,
        1 => u32::MAX,
        2 => 1 << 31,
        3 => u32::MAX >> 1,
        _ => random.word() as u32,
    };
    if field.signed {
        (high as i32 >> spare) as u32
    } else {
        high >> spare
    }
}

pub struct Maker<'a> {
    pub random: &'a mut Random,
    /// None where the description is refused.
    pub nodes: Vec<Node>,
    pub values: Vec<u32>,
    pub count: usize,
}

impl Maker<'_> {
    /// The entries that were read, with some of the words after them; where the reading was refused, some that nobody read.
    fn new<'a>(random: &'a mut Random, case: &Case, outcome: &Outcome) -> Maker<'a> {
        let count = outcome.count as usize;
        let words = (4 * count + random.below(12)).min(outcome.values.len());
        let nodes = check(&case.desc).unwrap_or_default();
        let mut maker = Maker { random, nodes, values: outcome.values[..words].to_vec(), count };
        if outcome.refusal != 0 {
            maker.invent();
        }
        maker
    }

    /// Entries of any node in any order, the numbers of their widths.
    pub fn invent(&mut self) {
        self.values.clear();
        self.count = self.random.below(12);
        for _ in 0..self.count {
            let node = self.random.below(self.nodes.len().max(1));
            let entry = self.entry(node);
            self.values.extend(entry);
        }
    }

    /// An entry of this node, with a number of its width.
    pub fn entry(&mut self, node: usize) -> [u32; 4] {
        let number = match self.nodes.get(node).and_then(Field::of) {
            Some(field) => number(self.random, field),
            None => self.random.word() as u32,
        };
        [node as u32, number, 0, 1]
    }

    /// The field of an entry; none where nothing is written of it.
    pub fn field(&self, entry: usize) -> Option<Field> {
        self.nodes.get(self.values[4 * entry] as usize).and_then(Field::of)
    }

    /// How many entries are counted and held.
    pub fn entries(&self) -> usize {
        self.count.min(self.values.len() / 4)
    }

    /// An entry for which the test holds, once in three the last one.
    pub fn find(&mut self, test: impl Fn(&Self, usize) -> bool) -> Option<usize> {
        let found: Vec<usize> = (0..self.entries()).filter(|&entry| test(self, entry)).collect();
        let last = *found.last()?;
        Some(if self.random.once_in(3) { last } else { self.random.pick(&found) })
    }

    /// How many bits the entries take, if nothing is refused.
    pub fn bits(&self) -> usize {
        (0..self.entries()).filter_map(|entry| self.field(entry)).map(|field| field.width as usize).sum()
    }

    fn replace(&mut self) {
        if let Some(entry) = self.find(|maker, entry| maker.field(entry).is_some()) {
            if let Some(field) = self.field(entry) {
                self.values[4 * entry + 1] = another(self.random, field, self.values[4 * entry + 1]);
            }
        }
    }

    /// The table, with a buffer of none, some, all or more of the bytes that are wanted.
    fn table(self, case: &Case) -> Table {
        let wanted = self.bits().div_ceil(8);
        let room = match self.random.below(16) {
            0 => 0,
            1 | 2 => wanted.saturating_sub(1),
            3 => self.random.below(wanted + 1),
            4 => MOST_WRITTEN + self.random.below(3),
            5..=9 => wanted,
            _ => wanted + 1 + self.random.below(20),
        };
        Table { desc: case.desc.clone(), values: self.values, count: self.count, room, rubbish: self.random.word() as u32 }
    }
}
