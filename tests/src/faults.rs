//! Faults planted in copies of the reader's answers: each has to be found, or the comparison shows nothing.

use crate::compare::{compiled, difference, expected};
use crate::generate::{case, Case};
use crate::random::Random;
use crate::reading::Outcome;
use crate::told;

/// A wrong reader: the compiled one, with its answer changed where that can be done.
struct Fault {
    name: &'static str,
    change: fn(&mut Outcome) -> bool,
}

const FAULTS: [Fault; 7] = [
    Fault { name: "one error less in the last entry that has one", change: |o| change_last(&mut o.descriptors, 3, |e| e > 0, |e| e - 1) },
    Fault { name: "a number one too large", change: |o| change_last(&mut o.values, 1, |n| n > 0 && n < u32::MAX, |n| n + 1) },
    Fault { name: "an end one bit further", change: |o| change_last(&mut o.descriptors, 1, |end| end > 0, |end| end + 1) },
    Fault { name: "a size that leaves the entry itself out", change: |o| change_last(&mut o.values, 3, |size| size > 1, |size| size - 1) },
    Fault { name: "a word after the last entry left as it was", change: |o| word_after(o) },
    Fault { name: "one entry more in the count", change: |o| o.refusal == 0 && bump(&mut o.count) },
    Fault { name: "another node given with a refusal", change: |o| o.refusal != 0 && bump(&mut o.node) },
];

fn bump(number: &mut u32) -> bool {
    *number += 1;
    true
}

/// Changes the last word of one sort in a table for which the test holds.
fn change_last(table: &mut [u32], sort: usize, test: fn(u32) -> bool, change: fn(u32) -> u32) -> bool {
    match table.chunks_exact_mut(4).rev().find(|entry| test(entry[sort])) {
        Some(entry) => {
            entry[sort] = change(entry[sort]);
            true
        }
        None => false,
    }
}

fn word_after(outcome: &mut Outcome) -> bool {
    let after = 4 * outcome.count as usize;
    match outcome.values.get_mut(after) {
        Some(word) => bump(word),
        None => false,
    }
}

/// Draws cases until each fault could be planted, and fails where one was planted and not found. Prints one of those that were found, made small.
pub fn find_all(random: &mut Random) -> Result<(), String> {
    for fault in &FAULTS {
        let wrong = |case: &Case| {
            let mut outcome = compiled(case)?;
            (fault.change)(&mut outcome);
            Some(outcome)
        };
        let planted = (0..10_000).map(|_| case(random)).find(|case| compiled(case).is_some_and(|mut outcome| (fault.change)(&mut outcome)));
        let case = planted.ok_or(format!("no case in which there could be this fault: {}", fault.name))?;
        let expected = expected(&case).map_err(|_| format!("the case for this fault takes too long: {}", fault.name))?;
        if difference(&case, &expected, &wrong).is_none() {
            return Err(format!("a planted fault was not found: {}", fault.name));
        }
        println!("a planted fault is found ({}): {}", fault.name, told(&case, &wrong).lines().next().unwrap_or_default());
    }
    Ok(())
}
