//! What the cases reached: each kind, code, refusal, detail and shape of tables, counted. A run that did not reach one of them shows less than it says.

use crate::description::{check, Node};
use crate::generate::Case;
use crate::reading::Outcome;
use crate::round_trip::Trip;
use crate::tables::Table;
use crate::writer_reached;
use crate::writing::{Written, MOST_WRITTEN};
use std::collections::BTreeMap;

const KINDS: [&str; 13] =
    ["unit", "bottom", "bits", "signed", "then", "bind", "either", "both", "where", "sequence", "compute", "absorb", "scan"];
const CODES: [&str; 3] = ["ok", "err", "fail"];
/// All but 11, which no description reaches.
const REFUSALS: [u32; 12] = [1, 2, 3, 4, 5, 6, 7, 8, 9, 10, 12, 13];
const DETAILS: [&str; 10] = [
    "either: the first taken",
    "either: the second taken",
    "sequence: empty",
    "sequence: one element",
    "sequence: more elements",
    "scan: found at once",
    "scan: found after some bits",
    "scan: not found",
    "bits or signed: whole bytes missing",
    "bits or signed: another number of bits missing",
];
const SHAPES: [&str; 6] = [
    "tables of one length",
    "fewer value words",
    "fewer descriptor words",
    "a length that is no multiple of 4",
    "no words at all",
    "room for all entries and none more",
];
const TRIPS: [&str; 8] = [
    "a round trip",
    "a round trip of no bits",
    "a round trip of several numbers",
    "a round trip that ends inside a byte",
    "a round trip that ends before the input",
    "a round trip of 8,191 bytes",
    "a round trip with one number of bits replaced",
    "a round trip with one signed number replaced",
];

#[derive(Default)]
pub struct Reached(BTreeMap<String, u64>);

impl Reached {
    /// Everything that has to be reached, at 0.
    pub fn new() -> Reached {
        let mut reached = Reached::default();
        let kinds = KINDS.iter().flat_map(|kind| CODES.iter().map(move |code| (kind, code))).filter(|(kind, code)| possible(kind, code));
        for (kind, code) in kinds {
            reached.0.insert(format!("{kind}, {code}"), 0);
        }
        for refusal in REFUSALS {
            reached.0.insert(format!("refused {refusal}"), 0);
        }
        for name in DETAILS.iter().chain(&SHAPES) {
            reached.0.insert(name.to_string(), 0);
        }
        for name in writer_reached::names().chain(TRIPS) {
            reached.0.insert(format!("writer: {name}"), 0);
        }
        reached
    }

    fn count(&mut self, name: String) {
        *self.0.entry(name).or_insert(0) += 1;
    }

    pub fn case(&mut self, case: &Case, outcome: &Outcome) {
        self.shapes(case, outcome);
        let (0, Ok(nodes)) = (outcome.refusal, check(&case.desc)) else {
            return self.count(format!("refused {}", outcome.refusal));
        };
        let entries = outcome.values.chunks_exact(4).zip(outcome.descriptors.chunks_exact(4));
        for (value, descriptor) in entries.take(outcome.count as usize) {
            self.entry(&nodes[value[0] as usize], value[2], descriptor[2]);
        }
    }

    fn entry(&mut self, node: &Node, detail: u32, code: u32) {
        let kind = KINDS[node.kind() as usize];
        self.count(format!("{kind}, {}", CODES[code as usize]));
        let name = match (kind, detail, code) {
            ("either", 1, _) => DETAILS[0],
            ("either", _, _) => DETAILS[1],
            ("sequence", 0, _) => DETAILS[2],
            ("sequence", 1, _) => DETAILS[3],
            ("sequence", _, _) => DETAILS[4],
            ("scan", _, 2) => DETAILS[7],
            ("scan", 0, _) => DETAILS[5],
            ("scan", _, _) => DETAILS[6],
            ("bits" | "signed", _, 2) if detail % 8 == 0 => DETAILS[8],
            ("bits" | "signed", _, 2) => DETAILS[9],
            _ => return,
        };
        self.count(name.to_string());
    }

    fn shapes(&mut self, case: &Case, outcome: &Outcome) {
        let (values, descriptors) = (case.value_words, case.descriptor_words);
        let shapes = [
            values == descriptors,
            values < descriptors,
            values > descriptors,
            values % 4 != 0 || descriptors % 4 != 0,
            values == 0 && descriptors == 0,
            outcome.refusal == 0 && values.min(descriptors) / 4 == outcome.count as usize,
        ];
        for (name, _) in SHAPES.iter().zip(shapes).filter(|(_, is)| *is) {
            self.count(name.to_string());
        }
    }

    pub fn table(&mut self, table: &Table, written: &Written) {
        for name in writer_reached::of(table, written) {
            self.count(format!("writer: {name}"));
        }
    }

    pub fn trip(&mut self, case: &Case, trip: &Trip) {
        let (bits, whole) = (trip.wanted.bits as usize, trip.replaced.is_none());
        let trips = [
            whole && bits > 0,
            whole && bits == 0,
            whole && trip.numbers > 1,
            whole && bits % 8 > 0,
            whole && bits < 8 * case.input.len(),
            whole && bits == 8 * MOST_WRITTEN,
            trip.replaced.is_some_and(|field| !field.signed),
            trip.replaced.is_some_and(|field| field.signed),
        ];
        for (name, _) in TRIPS.iter().zip(trips).filter(|(_, is)| *is) {
            self.count(format!("writer: {name}"));
        }
    }

    pub fn print(&self) {
        for (name, times) in &self.0 {
            println!("{times:>12}  {name}");
        }
    }

    /// What was never reached.
    pub fn missing(&self) -> Vec<&str> {
        self.0.iter().filter(|(_, times)| **times == 0).map(|(name, _)| name.as_str()).collect()
    }
}

/// Which codes a kind can have.
fn possible(kind: &str, code: &str) -> bool {
    match kind {
        "unit" | "compute" => code == "ok",
        "bottom" => code == "fail",
        "bits" | "signed" => code != "err",
        "sequence" => code != "fail",
        _ => true,
    }
}
