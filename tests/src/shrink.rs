//! A failing case or table made smaller while it still fails: less input, shorter tables, a shorter or simpler description.

use crate::generate::Case;
use crate::tables::Table;

/// What can be made smaller.
pub trait Smaller: Clone {
    /// Smaller ones, the much smaller ones first, in an order in which no one can come back.
    fn smaller(&self) -> Vec<Self>;

    fn with(&self, change: &dyn Fn(&mut Self)) -> Self {
        let mut smaller = self.clone();
        change(&mut smaller);
        smaller
    }
}

pub fn shrink<T: Smaller>(first: &T, fails: &dyn Fn(&T) -> bool) -> T {
    let mut best = first.clone();
    while let Some(smaller) = best.smaller().into_iter().find(|candidate| fails(candidate)) {
        best = smaller;
    }
    best
}

impl Smaller for Case {
    /// Each is smaller by the description's bytes, the input's, the tables' words, or the sum of all bytes.
    fn smaller(&self) -> Vec<Case> {
        let mut all = Vec::new();
        for length in lengths(self.input.len()) {
            all.push(self.with(&|c| c.input.truncate(length)));
        }
        all.extend(shorter(&self.desc).into_iter().map(|desc| Case { desc, ..self.clone() }));
        for words in lengths(self.value_words) {
            all.push(self.with(&|c| c.value_words = words));
        }
        for words in lengths(self.descriptor_words) {
            all.push(self.with(&|c| c.descriptor_words = words));
        }
        all.extend(simpler(&self.desc).into_iter().map(|desc| Case { desc, ..self.clone() }));
        for at in (0..self.input.len()).filter(|&at| self.input[at] > 0) {
            all.push(self.with(&|c| c.input[at] = 0));
        }
        all
    }
}

impl Smaller for Table {
    /// Each is smaller by the description's bytes, the table's words, the count, the buffer, or the sum of all bytes and words. Single words are taken
    /// out or made 0 where there are few of them.
    fn smaller(&self) -> Vec<Table> {
        let mut all = Vec::new();
        for words in lengths(self.values.len()) {
            all.push(self.with(&|t| t.values.truncate(words)));
            all.push(self.with(&|t| {
                t.values.truncate(words);
                t.count = t.count.min(words / 4);
            }));
        }
        let entries = self.values.len() / 4;
        for gone in lengths(entries).into_iter().map(|kept| entries - kept) {
            all.push(self.with(&|t| {
                t.values.drain(..4 * gone);
                t.count = t.count.saturating_sub(gone);
            }));
        }
        for count in lengths(self.count) {
            all.push(self.with(&|t| t.count = count));
        }
        for room in lengths(self.room) {
            all.push(self.with(&|t| t.room = room));
        }
        let descriptions = shorter(&self.desc).into_iter().chain(simpler(&self.desc));
        all.extend(descriptions.map(|desc| Table { desc, ..self.clone() }));
        if self.values.len() > 256 {
            return all;
        }
        for entry in 0..entries {
            all.push(self.with(&|t| {
                t.values.drain(4 * entry..4 * entry + 4);
                t.count = t.count.saturating_sub(1);
            }));
        }
        for at in (0..self.values.len()).filter(|&at| self.values[at] > 0) {
            all.push(self.with(&|t| t.values[at] = 0));
        }
        all
    }
}

/// Fronts and backs of a description.
fn shorter(desc: &[u8]) -> Vec<Vec<u8>> {
    lengths(desc.len()).into_iter().flat_map(|length| [desc[..length].to_vec(), desc[desc.len() - length..].to_vec()]).collect()
}

/// A description with one byte left out, or less.
fn simpler(desc: &[u8]) -> Vec<Vec<u8>> {
    let mut all = Vec::new();
    for (at, &byte) in desc.iter().enumerate() {
        let with = |bytes: &[u8]| [&desc[..at], bytes, &desc[at + 1..]].concat();
        all.push(with(&[]));
        if byte > 0 {
            all.push(with(&[0]));
            all.push(with(&[byte - 1]));
        }
    }
    all
}

/// Lengths below this one: none, half, less a quarter, less one.
fn lengths(length: usize) -> Vec<usize> {
    let mut shorter = vec![0, length / 2, length - length / 4, length.saturating_sub(1)];
    shorter.retain(|&l| l < length);
    shorter.dedup();
    shorter
}
