//! One table, written by the compiled writer and by the independent one: every byte of the buffer, and the bytes around it.

use crate::shrink::shrink;
use crate::tables::Table;
use crate::writing::Written;
use crate::{compiled, hex, writing};

/// What a writer leaves of a table, over a buffer that held some rubbish; none where it wrote beside it.
pub type Writer<'a> = &'a dyn Fn(&Table) -> Option<Written>;

pub fn expected(table: &Table) -> Written {
    writing::write(&table.desc, &table.values, table.count, table.room)
}

/// The compiled writer, with guards beside its buffer.
pub fn compiled(table: &Table) -> Option<Written> {
    compiled::written(table, 8)
}

/// The same without: a byte that is written beside the buffer is then seen by what watches memory.
pub fn unguarded(table: &Table) -> Option<Written> {
    compiled::written(table, 0)
}

/// What is different, in words; none where nothing is.
pub fn difference(table: &Table, expected: &Written, writer: Writer) -> Option<String> {
    let Some(found) = writer(table) else {
        return Some("a byte beside the buffer was written".to_string());
    };
    let stated = |w: &Written| [w.refusal, w.node, w.bits];
    if stated(&found) != stated(expected) {
        return Some(format!("the writer's refusal, node and bits are {:?}, and {:?} was expected", stated(&found), stated(expected)));
    }
    let at = (0..expected.bytes.len()).find(|&at| found.bytes[at] != expected.bytes[at])?;
    Some(format!("byte {at} of the buffer is {:02X}, and {:02X} was expected", found.bytes[at], expected.bytes[at]))
}

/// A table that is written otherwise than the independent writer does, made small, in words.
pub fn told(table: &Table, writer: Writer) -> String {
    let differs = |table: &Table| difference(table, &expected(table), writer);
    let small = shrink(table, &|table| differs(table).is_some());
    format!("{}\n{}", differs(&small).expect("what was shrunk still differs"), described(&small))
}

/// The call, in words; of a long table the first words.
pub fn described(table: &Table) -> String {
    let words: Vec<String> = table.values.iter().take(64).map(u32::to_string).collect();
    let more = if table.values.len() > words.len() { " .." } else { "" };
    format!(
        "  a count of {}, a buffer of {} bytes and a table of {} words: {}{more}\n  the description, in hex: {}",
        table.count,
        table.room,
        table.values.len(),
        words.join(" "),
        hex(&table.desc)
    )
}
