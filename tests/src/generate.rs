//! Descriptions, inputs and tables from a seed.

use crate::random::Random;

/// One call: what is read, and how many words each table is lent.
#[derive(Clone)]
pub struct Case {
    pub desc: Vec<u8>,
    pub input: Vec<u8>,
    pub value_words: usize,
    pub descriptor_words: usize,
    /// What the tables hold before the call comes from this.
    pub rubbish: u32,
}

pub fn case(random: &mut Random) -> Case {
    let desc = description(random);
    let input = input(random);
    let (value_words, descriptor_words) = tables(random);
    Case { desc, input, value_words, descriptor_words, rubbish: random.word() as u32 }
}

/// A number of every width after 1 to 8 bits, over 0 to 5 bytes: its first bit stands, and the input is cut, at every place in a byte.
pub fn cut_everywhere() -> Vec<Case> {
    let numbers = (1..=32).map(|width| (0x02, width)).chain([8, 16, 32].map(|width| (0x03, width)));
    let mut cases = Vec::new();
    for (kind, width) in numbers {
        for before in 1..=8 {
            for length in 0..=5 {
                let desc = vec![0x02, before, kind, width, 0x04, 0x00, 0x01];
                let input = [0xB4, 0x69, 0x5A, 0x96, 0xC3][..length].to_vec();
                cases.push(Case { desc, input, value_words: 12, descriptor_words: 12, rubbish: 0x0BAD_CAFE });
            }
        }
    }
    cases
}

/// A sequence of bytes over as many as an input may have: it is written back in the most bytes that can be written.
pub fn longest() -> Case {
    let desc = vec![0x02, 0x08, 0x00, 0x01, 0x09, 0x00, 0x01, 0x02, 0x00, 0xFF, 0xFF, 0xFF, 0xFF];
    let input: Vec<u8> = (0..8191u32).map(|i| (i * i) as u8).collect();
    Case { desc, input, value_words: 65_530, descriptor_words: 65_530, rubbish: 0x0BAD_CAFE }
}

fn description(random: &mut Random) -> Vec<u8> {
    match random.below(40) {
        0 => (0..random.below(1100)).map(|_| random.byte() % 14).collect(),
        1 => many_nodes(random),
        2 => vec![],
        3..=8 => damaged(random),
        _ => valid(random),
    }
}

/// 62 to 66 nodes in a chain of one child each, over a leaf.
fn many_nodes(random: &mut Random) -> Vec<u8> {
    let mut bytes = vec![0x02, 1 + random.byte() % 9];
    for child in 0..61 + random.below(5) as u8 {
        bytes.extend([random.pick(&[0x0B, 0x0B, 0x0C]), child]);
    }
    bytes
}

fn damaged(random: &mut Random) -> Vec<u8> {
    let mut bytes = valid(random);
    for _ in 0..1 + random.below(2) {
        let at = random.below(bytes.len());
        match random.below(6) {
            0 => bytes.truncate(at.max(1)),
            1 => bytes[at] = random.byte(),
            2 => bytes[at] = bytes[at].wrapping_add(1),
            3 => bytes[at] = bytes[at].wrapping_sub(1),
            4 => bytes.insert(at, random.byte() % 16),
            _ => {
                bytes.remove(at);
                if bytes.is_empty() {
                    bytes.push(0);
                }
            }
        }
    }
    bytes
}

/// A tree of nodes that passes the check, written with the children in any order.
fn valid(random: &mut Random) -> Vec<u8> {
    let mut maker = Maker { random, bytes: Vec::new(), nodes: 0 };
    let most = match maker.random.below(8) {
        0 => 64,
        1..=3 => 24,
        _ => 9,
    };
    let budget = 1 + maker.random.below(most);
    maker.node(budget, 0, false);
    maker.bytes
}

struct Maker<'a> {
    random: &'a mut Random,
    bytes: Vec<u8>,
    nodes: u8,
}

impl Maker<'_> {
    /// Writes a subtree of at most `budget` nodes inside so many binds, and gives its root's number.
    fn node(&mut self, budget: usize, binds: usize, number: bool) -> u8 {
        let kind = self.kind(budget, number);
        let mut bytes = vec![kind];
        match kind {
            0x02 => bytes.push(self.width()),
            0x03 => bytes.push(self.random.pick(&[8, 8, 16, 32])),
            0x04 | 0x06 | 0x07 => bytes.extend(self.children(budget - 1, &[(binds, false), (binds, false)])),
            0x05 => bytes.extend(self.children(budget - 1, &[(binds, true), (binds + 1, false)])),
            0x08 => {
                bytes.extend(self.children(budget - 1, &[(binds, true)]));
                bytes.push(self.random.byte() % 6);
                bytes.extend(self.operand(binds));
            }
            0x09 => {
                bytes.extend(self.children(budget - 1, &[(binds, false), (binds, false), (binds, false)]));
                bytes.extend(self.operand(binds));
            }
            0x0A => {
                bytes.extend([self.width(), self.random.byte() % 2]);
                bytes.extend(self.operand(binds));
                bytes.extend(self.operand(binds));
            }
            0x0B | 0x0C => bytes.extend(self.children(budget - 1, &[(binds, false)])),
            _ => {}
        }
        self.bytes.extend(bytes);
        self.nodes += 1;
        self.nodes - 1
    }

    fn kind(&mut self, budget: usize, number: bool) -> u8 {
        let kinds: &[u8] = match (budget, number) {
            (1, true) => &[0x02, 0x02, 0x02, 0x03, 0x0A],
            (1, false) => &[0x00, 0x01, 0x02, 0x02, 0x02, 0x02, 0x03, 0x0A],
            (_, true) => &[0x02, 0x02, 0x03, 0x08, 0x08, 0x0A],
            (2, false) => &[0x08, 0x08, 0x0B, 0x0C],
            (3, false) => &[0x04, 0x05, 0x05, 0x06, 0x07, 0x08, 0x0B, 0x0C],
            (_, false) => &[0x04, 0x04, 0x05, 0x05, 0x05, 0x06, 0x06, 0x07, 0x08, 0x09, 0x09, 0x09, 0x0B, 0x0C],
        };
        self.random.pick(kinds)
    }

    /// Shares the budget among the children, and writes them in any order: each is (binds around it, a number node is wanted).
    fn children(&mut self, budget: usize, wanted: &[(usize, bool)]) -> Vec<u8> {
        let mut shares = vec![1; wanted.len()];
        for _ in wanted.len()..budget {
            let one = self.random.below(shares.len());
            shares[one] += 1;
        }
        let mut order: Vec<usize> = (0..wanted.len()).collect();
        for i in (1..order.len()).rev() {
            order.swap(i, self.random.below(i + 1));
        }
        let mut numbers = vec![0; wanted.len()];
        for i in order {
            numbers[i] = self.node(shares[i], wanted[i].0, wanted[i].1);
        }
        numbers
    }

    fn width(&mut self) -> u8 {
        match self.random.below(4) {
            0 => 1 + self.random.byte() % 32,
            1 => self.random.pick(&[8, 16, 32]),
            _ => 1 + self.random.byte() % 4,
        }
    }

    fn operand(&mut self, binds: usize) -> [u8; 5] {
        if binds > 0 && !self.random.once_in(3) {
            return [1, 0, 0, 0, self.random.below(binds) as u8];
        }
        let constant: i32 = match self.random.below(8) {
            0 => -1,
            1 => self.random.word() as i32,
            2 => self.random.pick(&[i32::MIN, i32::MAX, -128, 127, 128, 255, 256, 32767, 32768, -32768, 65535, 65536]),
            3 => -(self.random.below(9) as i32),
            _ => self.random.below(9) as i32,
        };
        let [a, b, c, d] = constant.to_be_bytes();
        [0, a, b, c, d]
    }
}

fn input(random: &mut Random) -> Vec<u8> {
    let length = match random.below(400) {
        0 => 8189 + random.below(6),
        1 => random.below(9000),
        2..=9 => random.below(400),
        _ => random.below(13),
    };
    let pattern = random.below(4);
    (0..length)
        .map(|i| match pattern {
            0 => random.pick(&[0x00, 0x01, 0x02, 0x08, 0x80, 0xFF]),
            1 => i as u8,
            _ => random.byte(),
        })
        .collect()
}

fn tables(random: &mut Random) -> (usize, usize) {
    let words = match random.below(8) {
        0 => random.below(8),
        1 | 2 => random.below(64),
        3 => random.below(400),
        _ => 4096,
    };
    match random.below(4) {
        0 => (words, words + random.below(40)),
        1 => (words + random.below(40), words),
        2 => (words, words),
        _ => (words + random.below(4), words + random.below(4)),
    }
}
