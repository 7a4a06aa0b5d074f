//! The final values of a log's keys, by one thread over a `BTreeMap`: a baseline for `ucstore report`.
//!
//! It reads a log of counters from standard input, folds its writes as they come, and prints how many keys have a value then,
//! and a checksum of both: the line that `baseline --values` prints.

#[path = "../log.rs"]
mod log;
#[path = "../values.rs"]
mod values;

use std::io::{self, Read};
use values::values_of;

fn main() -> io::Result<()> {
    let mut log = Vec::new();
    io::stdin().lock().read_to_end(&mut log)?;
    let values = values_of(log);
    let bytes = values.iter().flat_map(|(key, value)| key.iter().chain(value));
    let sum = bytes.fold(0u64, |sum, &byte| sum.wrapping_mul(31).wrapping_add(u64::from(byte)));
    println!("keys {} checksum {sum:016x}", values.len());
    Ok(())
}
