#![allow(dead_code, unused_parens, clippy::all)]
mod bits;
mod description;
mod reader;
use std::hint::black_box;
use std::time::Instant;
#[link(name = "host", kind = "static")]
extern "C" {
    fn rippleshrug_read_slices(desc: *const u8, dl: usize, input: *const u8, il: usize, v: *mut u32, vl: usize, d: *mut u32, dl2: usize) -> u64;
}
fn proved(desc: &[u8], input: &[u8], v: &mut [u32], d: &mut [u32]) -> u64 {
    unsafe { rippleshrug_read_slices(desc.as_ptr(), desc.len(), input.as_ptr(), input.len(), v.as_mut_ptr(), v.len(), d.as_mut_ptr(), d.len()) }
}
fn same(desc: &[u8], input: &[u8], v: &mut [u32], d: &mut [u32]) -> u64 {
    match reader::read(desc, input, v, d) {
        reader::Answer::Success { count, end } => 65536 * count as u64 + 4294967296 * end as u64,
        _ => 1,
    }
}
fn main() {
    let desc: Vec<u8> = "02 10 02 10 0A 10 01 01 00 00 00 00 01 00 00 00 01 05 01 02 05 00 03 00 01 09 04 05 06 00 FF FF FF FF".split(' ').map(|b| u8::from_str_radix(b, 16).unwrap()).collect();
    let counters = (0u32..).map(|i| 65_530 + 613 * i + i * i % 97);
    let input: Vec<u8> = counters.flat_map(|c| [c as u16, (c + 10) as u16]).flat_map(u16::to_be_bytes).take(8191).collect();
    let n = 12294 * 4;
    let (mut v, mut d) = (vec![0u32; n], vec![0u32; n]);
    let (mut v2, mut d2) = (vec![1u32; n], vec![1u32; n]);
    assert_eq!(proved(&desc, &input, &mut v, &mut d), same(&desc, &input, &mut v2, &mut d2));
    assert!(v == v2 && d == d2);
    let (mut a, mut b) = (u128::MAX, u128::MAX);
    for _ in 0..3000 {
        let t = Instant::now();
        black_box(proved(black_box(&desc), black_box(&input), &mut v, &mut d));
        a = a.min(t.elapsed().as_nanos());
        let t = Instant::now();
        black_box(same(black_box(&desc), black_box(&input), &mut v2, &mut d2));
        b = b.min(t.elapsed().as_nanos());
    }
    println!("proved {a} same source in Rust {b} ratio {:.3}", a as f64 / b as f64);
}
