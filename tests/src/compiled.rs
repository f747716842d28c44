//! What the compiled check, reader and writer answer, and what a call leaves in tables and in a buffer between guards.

use crate::generate::Case;
use crate::guarded::Guarded;
use crate::library;
use crate::reading::Outcome;
use crate::tables::Table;
use crate::writing::Written;

/// The refusal and the node, both 0 where the description is accepted.
pub fn check(desc: &[u8]) -> (u32, u32) {
    let answer = library::check(desc);
    (answer % 256, answer / 256)
}

/// A table of so many words, with so many guards on each side.
fn words(words: usize, rubbish: u32, guards: usize) -> Guarded<u32> {
    Guarded::new(words, |i| rubbish.wrapping_mul(2 * i + 1), 0xDEAD_BEEF, guards)
}

/// A buffer of so many bytes, with so many guards on each side. No byte of its rubbish is 0, so that each shows whether it was written.
fn bytes(bytes: usize, rubbish: u32, guards: usize) -> Guarded<u8> {
    Guarded::new(bytes, |i| (rubbish.wrapping_mul(2 * i + 1) >> 24) as u8 | 1, 0xA5, guards)
}

/// What a call of this case leaves in its tables; none where it wrote one of so many words beside a table.
pub fn outcome(case: &Case, guards: usize) -> Option<Outcome> {
    // Copies are blocks of just so many bytes, as are tables without guards: what watches memory sees whatever is read or written beside them.
    let (desc, input) = (case.desc.to_vec(), case.input.to_vec());
    let mut values = words(case.value_words, case.rubbish, guards);
    let mut descriptors = words(case.descriptor_words, !case.rubbish, guards);
    let library::Answer { refusal, node, count, end } = library::read(&desc, &input, values.lent(), descriptors.lent());
    Some(Outcome { refusal, node, count, end, values: values.taken()?, descriptors: descriptors.taken()? })
}

/// What a call with this table leaves in its buffer; none where it wrote one of so many bytes beside it. Copies as above.
pub fn written(table: &Table, guards: usize) -> Option<Written> {
    let (desc, values) = (table.desc.to_vec(), table.values.to_vec());
    let mut buffer = bytes(table.room, table.rubbish, guards);
    let library::Written { refusal, node, bits } = library::write(&desc, &values, table.count, buffer.lent());
    Some(Written { refusal, node, bits, bytes: buffer.taken()? })
}
