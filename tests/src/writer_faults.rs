//! Faults planted in copies of the writer's answers: each has to be found in a table that is compared, and in a round trip where it can be in one.

use crate::back::{trip_told, Trips};
use crate::generate::{case, Case};
use crate::random::Random;
use crate::round_trip::{replaced, whole, Trip};
use crate::tables::{as_read, damaged, Table};
use crate::writing::Written;
use crate::written::{compiled, difference, expected, told};
use crate::{compare, reading};

/// A wrong writer: the compiled one, with its answer changed where that can be done.
struct Fault {
    name: &'static str,
    change: fn(&mut Written) -> bool,
    /// Whether it can be in a round trip, which is never refused.
    trips: bool,
}

const FAULTS: [Fault; 5] = [
    Fault { name: "a byte after the written ones left as it was", change: byte_after, trips: true },
    Fault { name: "one bit more in the answer", change: |w| w.refusal == 0 && bump(&mut w.bits), trips: true },
    Fault { name: "a written bit flipped", change: flip_last, trips: true },
    Fault { name: "another node given with a refusal", change: |w| w.refusal != 0 && bump(&mut w.node), trips: false },
    Fault { name: "a byte of a refused buffer left as it was", change: byte_refused, trips: false },
];

fn bump(number: &mut u32) -> bool {
    *number += 1;
    true
}

/// Puts rubbish where a byte is, if there is one.
fn spoil(byte: Option<&mut u8>) -> bool {
    byte.is_some_and(|byte| {
        *byte = 0x5A;
        true
    })
}

fn byte_after(written: &mut Written) -> bool {
    let after = written.bits.div_ceil(8) as usize;
    written.refusal == 0 && spoil(written.bytes.get_mut(after))
}

fn byte_refused(written: &mut Written) -> bool {
    written.refusal != 0 && spoil(written.bytes.last_mut())
}

fn flip_last(written: &mut Written) -> bool {
    let Some(last) = written.bits.checked_sub(1) else {
        return false;
    };
    written.bytes[last as usize / 8] ^= 0x80 >> (last % 8);
    true
}

/// Draws tables and round trips until each fault could be planted, and fails where one was planted and not found.
pub fn find_all(random: &mut Random) -> Result<(), String> {
    for fault in &FAULTS {
        let wrong = |table: &Table| {
            let mut written = compiled(table)?;
            (fault.change)(&mut written);
            Some(written)
        };
        let can = |table: &Table| compiled(table).is_some_and(|mut written| (fault.change)(&mut written));
        let none = || format!("no table in which there could be this fault of the writer: {}", fault.name);
        let missed = || format!("a planted fault of the writer was not found: {}", fault.name);
        let table = (0..10_000).find_map(|_| drawn_table(random).filter(can)).ok_or_else(none)?;
        difference(&table, &expected(&table), &wrong).ok_or_else(missed)?;
        say(fault, &told(&table, &wrong));
        let kinds: &[Trips] = if fault.trips { &[whole, replaced] } else { &[] };
        for &trips in kinds {
            let drawn = |_| drawn_trip(random, trips).filter(|(_, trip)| can(&trip.table));
            let (case, trip) = (0..10_000).find_map(drawn).ok_or_else(none)?;
            difference(&trip.table, &trip.wanted, &wrong).ok_or_else(missed)?;
            say(fault, &trip_told(&case, trips, &wrong));
        }
    }
    Ok(())
}

fn say(fault: &Fault, told: &str) {
    println!("a planted fault of the writer is found ({}): {}", fault.name, told.lines().next().unwrap_or_default());
}

fn drawn(random: &mut Random) -> Option<(Case, reading::Outcome)> {
    let case = case(random);
    let outcome = compare::expected(&case).ok()?;
    Some((case, outcome))
}

fn drawn_table(random: &mut Random) -> Option<Table> {
    let (case, outcome) = drawn(random)?;
    let make = random.pick(&[as_read, damaged]);
    Some(make(random, &case, &outcome))
}

fn drawn_trip(random: &mut Random, trips: Trips) -> Option<(Case, Trip)> {
    let (case, outcome) = drawn(random)?;
    let trip = trips(&case, &outcome)?;
    Some((case, trip))
}
