//! The proved hashes beside the same in plain Rust: one run, turn by turn, medians. The last column is the proved
//! hash's speed as a part of plain Rust's.
mod blake2s;
mod sha256;

use std::hint::black_box;
use std::time::Instant;

unsafe extern "C" {
    fn rattle_blake2s(message: *const u8, length: usize, out: *mut [u8; 32]) -> bool;
    fn rattle_sha256(message: *const u8, length: usize, out: *mut [u8; 32]) -> bool;
}

type Hash = fn(&[u8]) -> Option<[u8; 32]>;

fn proved_sha256(message: &[u8]) -> Option<[u8; 32]> {
    let mut out = [0; 32];
    unsafe { rattle_sha256(message.as_ptr(), message.len(), &mut out) }.then_some(out)
}

fn proved_blake2s(message: &[u8]) -> Option<[u8; 32]> {
    let mut out = [0; 32];
    unsafe { rattle_blake2s(message.as_ptr(), message.len(), &mut out) }.then_some(out)
}

const SIZES: [usize; 6] = [32, 64, 84, 108, 1024, 65535];
const TURNS: usize = 201;

/// Nanoseconds for one digest, over as many as take about a tenth of a millisecond.
fn time(hash: Hash, message: &[u8], times: u32) -> f64 {
    let start = Instant::now();
    for _ in 0..times {
        black_box(hash(black_box(message)));
    }
    start.elapsed().as_nanos() as f64 / f64::from(times)
}

fn median(mut times: Vec<f64>) -> f64 {
    times.sort_by(f64::total_cmp);
    times[times.len() / 2]
}

fn compare(name: &str, proved: Hash, plain: Hash) {
    for size in SIZES {
        let message: Vec<u8> = (0..size).map(|i| (i % 251) as u8).collect();
        assert_eq!(proved(&message), plain(&message), "{name} at {size} bytes");
        let times = (40_000 / (size + 64)).max(1) as u32;
        let (mut a, mut b) = (Vec::new(), Vec::new());
        for _ in 0..TURNS {
            a.push(time(proved, &message, times));
            b.push(time(plain, &message, times));
        }
        let (a, b) = (median(a), median(b));
        println!("{name:<10} {size:>6} {a:>12.1} {b:>12.1} {:>8.3}", b / a);
    }
}

fn main() {
    println!("{:<10} {:>6} {:>12} {:>12} {:>8}", "hash", "bytes", "proved ns", "plain ns", "speed");
    compare("SHA-256", proved_sha256, sha256::sha256);
    compare("BLAKE2s", proved_blake2s, blake2s::blake2s);
}
