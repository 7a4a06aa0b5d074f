//! The machine's limit for a program that goes once over its input: it reads standard input and copies it.

use std::hint::black_box;
use std::io::{self, Read};

fn main() -> io::Result<()> {
    let mut input = Vec::new();
    io::stdin().lock().read_to_end(&mut input)?;
    black_box(input.clone());
    println!("{} bytes", input.len());
    Ok(())
}
