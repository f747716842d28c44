//! Programs of other makes over the same export, each timed from outside: `PROGRAM FILE TIMES` reads the file so many times over and prints the sums.

use crate::export::Sums;
use std::fs;
use std::process::Command;
use std::time::Instant;

/// A line of the list that `run.sh` writes: the peer's name, how many times over it reads the export, and its command; no command where it is not
/// installed. A tab stands between the three.
pub struct Peer {
    pub name: String,
    times: usize,
    command: Option<Vec<String>>,
}

pub fn listed(list: &str) -> Vec<Peer> {
    let lines = fs::read_to_string(list).expect("the list of peers is there");
    let peer = |line: &str| {
        let [name, times, command] = line.split('\t').collect::<Vec<_>>()[..] else { panic!("a line of {list} is no peer: {line}") };
        let words: Vec<String> = command.split_whitespace().map(str::to_string).collect();
        Peer { name: name.to_string(), times: times.parse().expect("a number"), command: (!words.is_empty()).then_some(words) }
    };
    lines.lines().map(peer).collect()
}

impl Peer {
    /// Nanoseconds a reading: what so many more take than one does, so that starting and ending the program is not counted. Both are the best of
    /// some rounds. None where the peer is not installed.
    pub fn time(&self, export: &str, sums: &Sums) -> Option<f64> {
        let command = self.command.as_ref()?;
        let mut best = [f64::INFINITY; 2];
        for _ in 0..5 {
            for (best, times) in best.iter_mut().zip([1, 1 + self.times]) {
                let start = Instant::now();
                let done = Command::new(&command[0]).args(&command[1..]).args([export, &times.to_string()]).output();
                let took = start.elapsed().as_nanos() as f64;
                let done = done.unwrap_or_else(|error| panic!("{}: {} cannot be run: {error}", self.name, command[0]));
                assert!(done.status.success(), "{}: {}", self.name, String::from_utf8_lossy(&done.stderr));
                assert_eq!(String::from_utf8_lossy(&done.stdout).trim(), sums.to_string(), "{}: other sums than the reader's", self.name);
                *best = best.min(took);
            }
        }
        Some((best[1] - best[0]) / self.times as f64)
    }
}
