//! One case, read by the compiled reader and by the independent one: every word of both tables, and the words around them.

use crate::generate::Case;
use crate::reading::{Outcome, TooLong};
use crate::{compiled, description, reading};

/// So many visits, and no more, are worth a comparison.
const BUDGET: u64 = 200_000;

const VALUE: [&str; 4] = ["node", "number", "detail", "size"];
const DESCRIPTOR: [&str; 4] = ["begin", "end", "code", "errors"];

/// What a reader leaves of a case, over tables that held some rubbish; none where it wrote beside them.
pub type Reader<'a> = &'a dyn Fn(&Case) -> Option<Outcome>;

pub fn expected(case: &Case) -> Result<Outcome, TooLong> {
    reading::read(&case.desc, &case.input, case.value_words, case.descriptor_words, BUDGET)
}

/// The compiled reader, with guards beside its tables.
pub fn compiled(case: &Case) -> Option<Outcome> {
    compiled::outcome(case, 4)
}

/// The same without: a word that is read beside a table is then seen by what watches memory.
pub fn unguarded(case: &Case) -> Option<Outcome> {
    compiled::outcome(case, 0)
}

/// What is different, in words; none where nothing is.
pub fn difference(case: &Case, expected: &Outcome, reader: Reader) -> Option<String> {
    let verdict = description::check(&case.desc).err().unwrap_or((0, 0));
    let checked = compiled::check(&case.desc);
    if checked != verdict {
        return Some(format!("the check answers refusal and node {checked:?}, and {verdict:?} was expected"));
    }
    let Some(found) = reader(case) else {
        return Some("a word beside a table was written".to_string());
    };
    let stated = |o: &Outcome| [o.refusal, o.node, o.count, o.end];
    if stated(&found) != stated(expected) {
        return Some(format!("refusal, node, count and end are {:?}, and {:?} was expected", stated(&found), stated(expected)));
    }
    let tables = [("value", VALUE, &found.values, &expected.values), ("descriptor", DESCRIPTOR, &found.descriptors, &expected.descriptors)];
    for (table, words, found, expected) in tables {
        if let Some(at) = (0..expected.len()).find(|&at| found[at] != expected[at]) {
            let (entry, word) = (at / 4, words[at % 4]);
            return Some(format!("{table} entry {entry}: {word} is {}, and {} was expected", found[at], expected[at]));
        }
    }
    None
}
