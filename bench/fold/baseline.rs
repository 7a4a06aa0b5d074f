//! Folds of merge operands in plain Rust: each operand is appended to one `Vec<u8>`, or added to it.
use std::time::Instant;

fn digits(number: u64) -> [u8; 10] {
    let mut digits = [0; 10];
    let mut rest = number;
    for digit in digits.iter_mut().rev() {
        *digit = b'0' + (rest % 10) as u8;
        rest /= 10;
    }
    digits
}

fn appended(operands: Vec<Vec<u8>>) -> Vec<u8> {
    let mut operands = operands.into_iter();
    let mut all = operands.next().unwrap_or_default();
    for operand in operands {
        all.push(b',');
        all.extend_from_slice(&operand);
    }
    all
}

fn number(bytes: &[u8]) -> u64 {
    bytes.try_into().map_or(0, u64::from_le_bytes)
}

fn added(operands: Vec<Vec<u8>>) -> Vec<u8> {
    let mut operands = operands.into_iter();
    let mut all = operands.next().unwrap_or_default();
    for operand in operands {
        let sum = number(&all).wrapping_add(number(&operand));
        all.clear();
        all.extend_from_slice(&sum.to_le_bytes());
    }
    all
}

fn main() {
    let args: Vec<String> = std::env::args().collect();
    let count: u64 = args[2].parse().expect("a number of operands");
    let (start, all) = if args[1] == "append" {
        let operands = (0..count).map(|number| digits(number).to_vec()).collect();
        let start = Instant::now();
        (start, appended(operands))
    } else {
        let operands = (0..count).map(|number| number.to_le_bytes().to_vec()).collect();
        let start = Instant::now();
        (start, added(operands))
    };
    let nanoseconds = start.elapsed().as_nanos();
    let checksum = all.iter().fold(0u64, |sum, &byte| sum.wrapping_mul(31).wrapping_add(u64::from(byte)));
    println!("{nanoseconds} {} {checksum:016x}", all.len());
}
