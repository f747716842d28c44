//! Request 2's writer, written in Rust: what each node stores is looked up once, then one way through the entries gathers their bits in a word.

use crate::description::{examine, MOST_NODES};
use crate::library::Written;

const MOST_BYTES: usize = 8191;

/// A call: refusal, node and bits, and the buffer, of which only what stays unwritten is cleared.
pub fn write(desc: &[u8], values: &[u32], count: usize, buffer: &mut [u8]) -> Written {
    match bits(desc, values, count, buffer) {
        Ok(bits) => {
            buffer[bits.div_ceil(8)..].fill(0);
            Written { refusal: 0, node: 0, bits: bits as u32 }
        }
        Err((refusal, node)) => {
            buffer.fill(0);
            Written { refusal, node: node as u32, bits: 0 }
        }
    }
}

/// How many bits were written, or a refusal with its node.
fn bits(desc: &[u8], values: &[u32], count: usize, buffer: &mut [u8]) -> Result<usize, (u32, usize)> {
    let mut starts = [0; MOST_NODES];
    let nodes = examine(desc, &mut starts)?;
    let mut stored = [Stored::default(); MOST_NODES];
    for (stored, &start) in stored.iter_mut().zip(&starts[..nodes]) {
        *stored = Stored::by(&desc[start..]).ok_or((14, 0))?;
    }
    let entries = values.as_chunks().0.get(..count).ok_or((15, 0))?;
    let mut packer = Packer { buffer, at: 0, held: 0, word: 0 };
    for &[node, number, _, _] in entries {
        let stored = stored[..nodes].get(node as usize).ok_or((15, 0))?;
        if stored.width > 0 {
            packer.put(stored.width, stored.bits(number).ok_or((15, 0))?);
        }
    }
    packer.finish().ok_or((16, 0))
}

/// What an entry of a node stores: a number of so many bits, 0 where it stores none.
#[derive(Clone, Copy, Default)]
struct Stored {
    width: u32,
    /// The bit that tells the sign, 0 where none does.
    sign: u32,
    /// A bit for each of the width.
    mask: u32,
}

impl Stored {
    /// None for a both, an absorb and a scan.
    fn by(node: &[u8]) -> Option<Stored> {
        let number = |width: u8, sign| Stored { width: width.into(), sign, mask: u32::MAX >> (32 - width) };
        match node[0] {
            2 => Some(number(node[1], 0)),
            3 => Some(number(node[1], 1 << (node[1] - 1))),
            7 | 11 | 12 => None,
            _ => Some(Stored::default()),
        }
    }

    /// A number's bits; none where it is not one of the width. A signed one that is moved up by half of all there are is then one without a sign.
    fn bits(self, number: u32) -> Option<u32> {
        (number.wrapping_add(self.sign) <= self.mask).then_some(number & self.mask)
    }
}

struct Packer<'a> {
    buffer: &'a mut [u8],
    /// How many bytes were stored. It goes on past the end, where nothing is stored.
    at: usize,
    /// How many low bits of the word are still to be stored: below 32.
    held: u32,
    word: u64,
}

impl Packer<'_> {
    fn put(&mut self, width: u32, bits: u32) {
        self.word = self.word << width | u64::from(bits);
        self.held += width;
        if self.held >= 32 {
            self.held -= 32;
            self.store(((self.word >> self.held) as u32).to_be_bytes());
        }
    }

    fn store<const N: usize>(&mut self, bytes: [u8; N]) {
        if let Some(place) = self.buffer.get_mut(self.at..).and_then(|rest| rest.first_chunk_mut()) {
            *place = bytes;
        }
        self.at += N;
    }

    /// How many bits there are, after the last of them were padded and stored; none where their bytes exceed the buffer or 8,191.
    fn finish(mut self) -> Option<usize> {
        let bits = 8 * self.at + self.held as usize;
        let bytes = bits.div_ceil(8);
        if bytes > self.buffer.len().min(MOST_BYTES) {
            return None;
        }
        let padded = (self.word << (32 - self.held)) as u32;
        for &byte in &padded.to_be_bytes()[..bytes - self.at] {
            self.store([byte]);
        }
        Some(bits)
    }
}
