//! Sums of bytes by CRC-32C in plain Rust: slicing by 8, over tables that the compiler makes.
//!
//!     baseline bytes SIZE_MIB > BYTES
//!     baseline ROUNDS < BYTES
#[path = "../crc32c.rs"]
mod crc32c;

use std::hint::black_box;
use std::io::{self, Read, Write};
use std::time::Instant;

fn generated(size: usize) -> Vec<u8> {
    let mut state = 0u64;
    (0..size)
        .map(|_| {
            state = state.wrapping_mul(6364136223846793005).wrapping_add(1442695040888963407);
            (state >> 56) as u8
        })
        .collect()
}

/// The checksum, summed `rounds` times.
fn summed(bytes: &[u8], rounds: u32) -> u32 {
    let mut checksum = 0;
    for _ in 0..rounds {
        checksum = !crc32c::update(!0, black_box(bytes));
    }
    checksum
}

fn main() -> io::Result<()> {
    let words: Vec<String> = std::env::args().skip(1).collect();
    if let [word, size] = words.as_slice() {
        assert_eq!(word, "bytes");
        let size: usize = size.parse().expect("a number of MiB");
        return io::stdout().write_all(&generated(size << 20));
    }
    let rounds: u32 = words[0].parse().expect("a number of rounds");
    let mut bytes = Vec::new();
    io::stdin().lock().read_to_end(&mut bytes)?;
    let start = Instant::now();
    let checksum = summed(&bytes, rounds);
    println!("{} {checksum:08x}", start.elapsed().as_nanos());
    Ok(())
}
