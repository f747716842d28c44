//! Request 2 of document 02, "Writing records back", in its words and with nothing else in mind: the bits go to a list that grows, so that room is
//! asked about only at the end.

use crate::description::{check, Node, Refusal};

pub const MOST_WRITTEN: usize = 8191;

/// What a call leaves: refusal, node and the number of bits, and every byte of the buffer.
#[derive(Clone, PartialEq, Eq)]
pub struct Written {
    pub refusal: u32,
    pub node: u32,
    pub bits: u32,
    pub bytes: Vec<u8>,
}

/// What a bits or signed node says of the numbers that are written.
#[derive(Clone, Copy)]
pub struct Field {
    pub width: u32,
    pub signed: bool,
}

impl Field {
    /// None for the other kinds, of which nothing is written.
    pub fn of(node: &Node) -> Option<Field> {
        match *node {
            Node::Bits(width) => Some(Field { width, signed: false }),
            Node::Signed(width) => Some(Field { width, signed: true }),
            _ => None,
        }
    }

    /// Whether the word is a number of this width; a signed one stands sign-extended to 32 bits.
    pub fn has(&self, word: u32) -> bool {
        if self.signed {
            let half = 1i64 << (self.width - 1);
            (-half..half).contains(&(word as i32 as i64))
        } else {
            (word as u64) < 1u64 << self.width
        }
    }

    /// The word's lowest bits, as many as the width, the most significant first.
    fn bits(self, word: u32) -> impl Iterator<Item = bool> {
        (0..self.width).rev().map(move |i| word >> i & 1 == 1)
    }
}

/// Whether the description can be written by: it has none of both, absorb and scan.
pub fn writable(nodes: &[Node]) -> bool {
    !nodes.iter().any(|node| matches!(node, Node::Both(..) | Node::Absorb(_) | Node::Scan(_)))
}

pub fn write(desc: &[u8], values: &[u32], count: usize, room: usize) -> Written {
    match bits(desc, values, count).and_then(|bits| Ok((bits.len() as u32, packed(&bits, room)?))) {
        Ok((bits, bytes)) => Written { refusal: 0, node: 0, bits, bytes },
        Err((refusal, node)) => Written { refusal, node, bits: 0, bytes: vec![0; room] },
    }
}

/// The numbers' bits, one after another, or a refusal up to 15.
fn bits(desc: &[u8], values: &[u32], count: usize) -> Result<Vec<bool>, Refusal> {
    let nodes = check(desc)?;
    if !writable(&nodes) {
        return Err((14, 0));
    }
    if count > values.len() / 4 {
        return Err((15, 0));
    }
    let mut bits = Vec::new();
    for entry in values.chunks_exact(4).take(count) {
        let (node, number) = (entry[0] as usize, entry[1]);
        let Some(field) = Field::of(nodes.get(node).ok_or((15, 0))?) else {
            continue;
        };
        if !field.has(number) {
            return Err((15, 0));
        }
        bits.extend(field.bits(number));
    }
    Ok(bits)
}

/// The bits in bytes, then zeros to the buffer's end, or refusal 16.
fn packed(bits: &[bool], room: usize) -> Result<Vec<u8>, Refusal> {
    let wanted = bits.len().div_ceil(8);
    if wanted > room || wanted > MOST_WRITTEN {
        return Err((16, 0));
    }
    let mut bytes = vec![0; room];
    for (i, _) in bits.iter().enumerate().filter(|(_, &bit)| bit) {
        bytes[i / 8] |= 0x80 >> (i % 8);
    }
    Ok(bytes)
}
