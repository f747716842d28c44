//! What is written back of a case that was read: two tables that are made from it, and the case's own where it was read clean.

use crate::generate::Case;
use crate::random::Random;
use crate::reached::Reached;
use crate::reading::Outcome;
use crate::round_trip::{replaced, whole, Trip};
use crate::shrink::shrink;
use crate::written::{described, difference, expected, told, Writer};
use crate::{compare, hex, tables};
use std::fmt;

/// A sort of round trip: the one that a case has, if it has one.
pub type Trips = fn(&Case, &Outcome) -> Option<Trip>;

pub struct Back<'a> {
    writer: Writer<'a>,
    random: Random,
    tables: u64,
    trips: u64,
    replaced: u64,
}

impl Back<'_> {
    /// Tables have numbers of their own from the seed: the cases of a seed are the same whatever is made from them.
    pub fn new(writer: Writer, seed: u64) -> Back {
        Back { writer, random: Random::new(!seed), tables: 0, trips: 0, replaced: 0 }
    }

    /// `outcome` is what both readers gave.
    pub fn case(&mut self, case: &Case, outcome: &Outcome, reached: &mut Reached) -> Result<(), String> {
        for make in [tables::as_read, tables::damaged] {
            let table = make(&mut self.random, case, outcome);
            let expected = expected(&table);
            if difference(&table, &expected, self.writer).is_some() {
                return Err(told(&table, self.writer));
            }
            reached.table(&table, &expected);
            self.tables += 1;
        }
        self.trips += self.trip(case, outcome, whole, reached)?;
        self.replaced += self.trip(case, outcome, replaced, reached)?;
        Ok(())
    }

    /// How many trips there are: one or none.
    fn trip(&self, case: &Case, outcome: &Outcome, trips: Trips, reached: &mut Reached) -> Result<u64, String> {
        let Some(trip) = trips(case, outcome) else {
            return Ok(0);
        };
        if difference(&trip.table, &trip.wanted, self.writer).is_some() {
            return Err(trip_told(case, trips, self.writer));
        }
        reached.trip(case, &trip);
        Ok(1)
    }
}

/// A case whose round trip differs, made small, in words.
pub fn trip_told(case: &Case, trips: Trips, writer: Writer) -> String {
    let of = |case: &Case| compare::expected(case).ok().and_then(|outcome| trips(case, &outcome));
    let differs = |case: &Case| of(case).and_then(|trip| Some((difference(&trip.table, &trip.wanted, writer)?, trip)));
    let small = shrink(case, &|case| differs(case).is_some());
    let (words, trip) = differs(&small).expect("what was shrunk still differs");
    format!("in a round trip, {words}\n{}\n  the input that it was read from, in hex: {}", described(&trip.table), hex(&small.input))
}

impl fmt::Display for Back<'_> {
    fn fmt(&self, to: &mut fmt::Formatter) -> fmt::Result {
        writeln!(to, "{} tables made from them are written back equal in every byte", self.tables)?;
        write!(to, "{} round trips give the input's bits back, and {} more with one number replaced", self.trips, self.replaced)
    }
}
