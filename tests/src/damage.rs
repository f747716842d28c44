//! Damage to a table that is to be written: what the writer has to refuse, and what it must not look at.

use crate::tables::Maker;
use crate::writing::{writable, Field, MOST_WRITTEN};

impl Maker<'_> {
    pub fn damage(&mut self) {
        match self.random.below(200) {
            0 if writable(&self.nodes) => self.many(),
            1..=12 if writable(&self.nodes) => self.fill(),
            13..=38 => self.invent(),
            _ => {}
        }
        for _ in 0..self.random.below(3) {
            match self.random.below(5) {
                0 | 1 => self.other_node(),
                _ => self.other_width(),
            }
        }
        if self.random.once_in(2) {
            self.not_looked_at();
        }
        if self.random.once_in(6) {
            self.other_length();
        }
        if self.random.once_in(3) {
            self.other_count();
        }
    }

    /// Entries until their bits come to some 8,191 bytes, and often to just so many.
    fn fill(&mut self) {
        let target = 8 * MOST_WRITTEN - 8 + self.random.below(24);
        let fields: Vec<usize> = (0..self.nodes.len()).filter(|&n| Field::of(&self.nodes[n]).is_some()).collect();
        let mut bits = self.bits();
        self.values.truncate(4 * self.count);
        while !fields.is_empty() && bits < target {
            let node = self.random.pick(&fields);
            let entry = self.entry(node);
            self.values.extend(entry);
            self.count += 1;
            bits += Field::of(&self.nodes[node]).map_or(0, |field| field.width as usize);
        }
    }

    /// More than 65,535 entries: those that there are, many of which nothing is written if there is such a node, and the first ones once more.
    fn many(&mut self) {
        let other = (0..self.nodes.len()).find(|&n| Field::of(&self.nodes[n]).is_none()).unwrap_or(0);
        let entries = self.values[..4 * self.count].to_vec();
        self.values.truncate(4 * self.count);
        self.values.extend([other as u32, 0, 0, 1].repeat(65_535));
        self.values.extend(entries);
        self.count = self.values.len() / 4;
    }

    /// A node number that is not in the description, some of them one that is if not all of the word is looked at.
    fn other_node(&mut self) {
        let Some(entry) = self.find(|_, _| true) else {
            return;
        };
        let (nodes, node) = (self.nodes.len() as u32, self.values[4 * entry] % 64);
        let any = self.random.word() as u32;
        self.values[4 * entry] =
            self.random.pick(&[nodes, nodes + 1, 64 + node, 256 + node, (1 << 16) + node, (1 << 31) + node, u32::MAX, any]);
    }

    /// A number that is not one of its width: one bit more, a sign that is not or only partly extended, a number just outside.
    fn other_width(&mut self) {
        let narrow = |maker: &Self, entry: usize| maker.field(entry).is_some_and(|field| field.width < 32);
        let Some(entry) = self.find(narrow) else {
            return;
        };
        let Some(Field { width, signed }) = self.field(entry) else {
            return;
        };
        let (number, any) = (self.values[4 * entry + 1], self.random.word() as u32);
        let low = u32::MAX >> (32 - width);
        self.values[4 * entry + 1] = if signed {
            let half = 1 << (width - 1);
            self.random.pick(&[half, !half, low, number & low | half, number ^ 1 << width, number ^ 1 << 31, any])
        } else {
            self.random.pick(&[low + 1, number | (low + 1), u32::MAX, number | 1 << 31, !number, any])
        };
    }

    /// Rubbish in every word that the writer does not look at: details, sizes, numbers of other kinds, and whatever is after the count.
    fn not_looked_at(&mut self) {
        let entries = self.entries();
        for entry in 0..entries {
            if self.field(entry).is_none() {
                self.values[4 * entry + 1] = self.random.word() as u32;
            }
            self.values[4 * entry + 2] = self.random.word() as u32;
            self.values[4 * entry + 3] = self.random.word() as u32;
        }
        for word in &mut self.values[4 * entries..] {
            *word = self.random.word() as u32;
        }
    }

    /// A table that is shorter by some words, or has some after its last entry that are none.
    fn other_length(&mut self) {
        let counted = 4 * self.count;
        let words = match self.random.below(3) {
            0 => self.random.below(self.values.len() + 1),
            1 => counted.saturating_sub(1 + self.random.below(3)),
            _ => counted + 1 + self.random.below(3),
        };
        self.values.resize(words, 0xFFFF_FFFF);
    }

    /// None, fewer, one more than there are, as many as there are, or so many that no number of words or bytes is one of 32 or 64 bits.
    fn other_count(&mut self) {
        let (count, held) = (self.count, self.values.len() / 4);
        self.count = match self.random.below(6) {
            0 => 0,
            1 | 2 => self.random.below(held + 1),
            3 => held + 1,
            4 => held,
            _ => {
                self.random.pick(&[usize::MAX, (1 << 62) + count, (1 << 60) + count, (1 << 32) + count, 65_536 + count, u32::MAX as usize])
            }
        };
    }
}
