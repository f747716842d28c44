//! Times the proved check, through its static library, beside the same check written in Rust.

use std::hint::black_box;
use std::time::Instant;

#[allow(dead_code)] // the reader and the writer, which are timed by themselves
#[path = "../tests/src/library.rs"]
mod library;
#[path = "plain/description.rs"]
mod plain;

use library::check as proved;

/// The check in Rust: the refusal plus 256 times the node, 0 where it accepts.
fn in_rust(desc: &[u8]) -> u32 {
    match plain::examine(desc, &mut [0; plain::MOST_NODES]) {
        Ok(_) => 0,
        Err((refusal, node)) => refusal + 256 * node as u32,
    }
}

const COMPUTE: [u8; 13] = [10, 32, 0, 0, 0, 0, 0, 1, 0, 0, 0, 0, 2];

/// 43 computes that 21 sequences join: 64 nodes and 748 bytes, the longest description that is accepted.
fn longest() -> Vec<u8> {
    let mut desc = COMPUTE.repeat(43);
    for child in (0..63).step_by(3) {
        desc.extend([9, child, child + 1, child + 2, 0, 0, 0, 0, 1]);
    }
    desc
}

/// 64 computes, and more of them up to 1,024 bytes: refused 4 after every node that there may be was looked at.
fn refused() -> Vec<u8> {
    COMPUTE.iter().copied().cycle().take(1024).collect()
}

/// The best of some rounds, in nanoseconds a check: what disturbs a round only adds.
fn time(check: fn(&[u8]) -> u32, desc: &[u8]) -> f64 {
    const TURNS: u32 = 20_000;
    let round = || {
        let start = Instant::now();
        for _ in 0..TURNS {
            black_box(check(black_box(desc)));
        }
        start.elapsed().as_nanos() as f64 / f64::from(TURNS)
    };
    (0..50).map(|_| round()).fold(f64::INFINITY, f64::min)
}

fn main() {
    println!("{:>24}  {:>6}  {:>8}  {:>8}  {:>5}", "description", "answer", "proved", "Rust", "ratio");
    for (what, desc, answer) in [("748 bytes, accepted", longest(), 0), ("1,024 bytes, refused 4", refused(), 4 + 256 * 64)] {
        assert_eq!(proved(&desc), answer, "{what}: the proved check");
        assert_eq!(in_rust(&desc), answer, "{what}: the check in Rust");
        let (ours, plain) = (time(proved, &desc), time(in_rust, &desc));
        println!("{what:>24}  {answer:>6}  {ours:>5.0} ns  {plain:>5.0} ns  {:>5.2}", ours / plain);
    }
}
