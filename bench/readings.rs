//! Readings on which all readers have to agree, and all writers on what was read, before one is timed.

use crate::records::{bytes, intervals, INTERVALS};

const CASE_A: &str = "02 10 02 10 0A 10 01 01 00 00 00 00 01 00 00 00 01 05 01 02 05 00 03";

/// Readings on which all have to give the same answer and the same tables: 01's, and others for each kind and for each refusal of a call.
const READINGS: &[(&str, &str)] = &[
    (CASE_A, "FF FA 00 04"),
    (CASE_A, "FF FF 00 00"),
    (CASE_A, "00 00 FF FF"),
    (CASE_A, "FF FA 00"),
    (CASE_A, ""),
    ("02 08 08 00 00 00 00 00 00 2A 02 04 06 01 02", "2A"),
    ("02 08 08 00 00 00 00 00 00 2A 02 04 06 01 02", "2B"),
    ("02 08 08 00 00 00 00 00 00 2A 02 04 06 01 02", ""),
    ("02 05 00 01 09 00 01 02 00 FF FF FF FF", "00"),
    ("02 05 00 01 09 00 01 02 00 FF FF FF FF", ""),
    ("02 08 08 00 00 00 00 00 00 2A 0C 01", "00 2A"),
    ("02 08 08 00 00 00 00 00 00 2A 0C 01", "00 2B"),
    ("03 08", "FF"),
    ("02 20", "FF FF FF FF"),
    ("02 21", ""),
    ("00 00", ""),
    ("00 04 00 00", ""),
    ("0B 00", ""),
    ("", "00"),
    // a then of two bottoms in a then; a both whose first is the longer; a scan that finds T; an absorbed sequence with an error
    ("01 01 04 00 01 00 04 02 03", "00"),
    ("02 0C 02 05 07 00 01", "AB CD"),
    ("01 00 01 09 00 01 02 00 FF FF FF FF 0C 03", "00"),
    ("02 05 00 01 09 00 01 02 00 FF FF FF FF 0B 03", "00"),
    // two signed numbers: wheres of each relation over them, the second bounded by the first, and a sum modulo 2^5
    ("03 08 08 00 04 00 FF FF FF F0 03 10 08 02 02 01 00 00 00 00 0A 05 00 01 00 00 00 00 01 00 00 00 01 05 03 04 05 01 05", "F8 F0 00"),
    ("03 08 08 00 05 00 FF FF FF F0 03 10 08 02 03 01 00 00 00 00 0A 05 00 01 00 00 00 00 01 00 00 00 01 05 03 04 05 01 05", "EF 7F FF"),
    ("03 20 08 00 01 00 FF FF FF FF", "FF FF FF FF"),
    // a count that is bound, then as many bytes with a separator of 4 bits
    ("02 08 02 08 02 04 01 09 01 02 03 01 00 00 00 00 05 00 04", "03 11 F2 2E 33 44"),
    ("02 08 02 08 02 04 01 09 01 02 03 01 00 00 00 00 05 00 04", "00 11"),
    // separators with errors; an element that stands still while the separator moves; a where whose child fails
    ("02 08 02 04 08 01 00 00 00 00 00 0F 01 09 00 02 03 00 FF FF FF FF", "11 F2 2E 33 44"),
    ("00 02 10 01 09 00 01 02 00 FF FF FF FF", "00 01 00 02"),
    ("02 08 08 00 00 00 00 00 00 2A", ""),
    // a terminator that is seen; an either in a scan whose first part is dropped at every start but one
    ("02 08 00 02 08 08 02 00 00 00 00 00 FF 09 00 01 03 00 FF FF FF FF", "01 02 FF 03"),
    ("02 08 02 08 08 01 00 00 00 00 00 80 04 00 02 02 03 08 04 00 00 00 00 00 07 06 03 05 0C 06", "11 22 33 80 FF"),
];

/// All of them: description and input.
pub fn all() -> Vec<(Vec<u8>, Vec<u8>)> {
    let mut readings: Vec<_> = READINGS.iter().map(|(desc, input)| (bytes(desc), bytes(input))).collect();
    readings.extend([80, 800, 8191, 8192].map(|length| (bytes(INTERVALS), intervals(length))));
    readings.push((bytes("02 01 00 01 09 00 01 02 00 FF FF FF FF"), vec![0x5A; 4096]));
    for (relation, byte) in (0..6).flat_map(|relation| [0x29, 0x2A, 0x2B].map(|byte| (relation, byte))) {
        readings.push((vec![2, 8, 8, 0, relation, 0, 0, 0, 0, 0x2A], vec![byte]));
    }
    readings
}
