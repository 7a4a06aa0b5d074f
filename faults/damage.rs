//! Damages a log at each byte and cuts it at each place, and compares what a program says of it with another program that
//! decodes the same.
//!
//!     damage LOG PROGRAM OTHER
//!
//! Each byte is changed in three ways, once as it is and once with the checksum of its record made right again, so that what
//! stands behind the checksum is reached too. `PROGRAM dump` has to print what OTHER prints, and `PROGRAM ask`, asked nothing of
//! the log, has to print its fault, or nothing where it has none. It prints a line: the log, the damaged logs that were tried, how
//! many endings they had between them, and how many were answered otherwise. Its status is 1 where one was.

#[path = "../bench/log.rs"]
#[allow(dead_code)]
mod log;

use std::collections::BTreeSet;
use std::fs;
use std::io::{self, Write};
use std::path::Path;
use std::process::{Command, ExitCode, Stdio};

/// What is changed in a byte.
const CHANGES: [u8; 3] = [0x01, 0x80, 0xff];

/// A record's header: four bytes of checksum, two of length, and the kind, which the checksum covers.
const HEADER: usize = 7;

/// The status of a program that was given a log with a fault.
const BAD_LOG: i32 = 3;

/// A text with the status behind it.
type Answer = (Vec<u8>, Option<i32>);

/// What a program says of an input.
fn answer(program: &str, words: &[&str], input: &[u8]) -> io::Result<Answer> {
    let mut child = Command::new(program)
        .args(words)
        .stdin(Stdio::piped())
        .stdout(Stdio::piped())
        .stderr(Stdio::null())
        .spawn()?;
    // The inputs are smaller than a pipe.
    child.stdin.take().expect("standard input is piped").write_all(input)?;
    let output = child.wait_with_output()?;
    Ok((output.stdout, output.status.code()))
}

/// The log with the checksum of the record over a place made right, where a whole record is over it.
fn repaired(mut log: Vec<u8>, place: usize) -> Option<Vec<u8>> {
    let mut start = 0;
    while start + HEADER <= log.len() {
        let length = usize::from(u16::from_le_bytes([log[start + 4], log[start + 5]]));
        let end = start + HEADER + length;
        if end > log.len() || start > place {
            return None;
        }
        if place < end {
            if place < start + HEADER - 1 {
                return None;
            }
            let sum = log::checksum(&log[start + HEADER - 1..end]).to_le_bytes();
            log[start..start + 4].copy_from_slice(&sum);
            return Some(log);
        }
        start = end;
    }
    None
}

/// What is right where a log is asked nothing, by what is right of its dump: the fault that this ends in.
fn asked_nothing(dumped: &Answer) -> Answer {
    if dumped.1 != Some(BAD_LOG) {
        return (Vec::new(), Some(0));
    }
    let last = dumped.0.split_inclusive(|byte| *byte == b'\n').last();
    (last.unwrap_or_default().to_vec(), dumped.1)
}

/// Every damaged log.
fn damaged(log: &[u8]) -> Vec<Vec<u8>> {
    let mut all: Vec<Vec<u8>> = (0..=log.len()).map(|cut| log[..cut].to_vec()).collect();
    for place in 0..log.len() {
        for change in CHANGES {
            let mut changed = log.to_vec();
            changed[place] ^= change;
            all.extend(repaired(changed.clone(), place));
            all.push(changed);
        }
    }
    all
}

fn compare(file: &str, program: &str, other: &str) -> io::Result<bool> {
    let log = fs::read(file)?;
    let (mut tried, mut wrong) = (0_u64, 0_u64);
    let mut endings = BTreeSet::new();
    for log in damaged(&log) {
        let ours = answer(program, &["dump"], &log)?;
        let theirs = answer(other, &[], &log)?;
        let asked = answer(program, &["ask", "--operator", "append"], &[b"log\n", &log[..]].concat())?;
        tried += 1;
        if ours != theirs || asked != asked_nothing(&theirs) {
            wrong += 1;
            eprintln!("{file}: answered otherwise: {log:02x?}");
        }
        let text = String::from_utf8_lossy(&ours.0).into_owned();
        endings.extend(text.lines().last().map(str::to_owned));
    }
    let name = Path::new(file).file_stem().and_then(|name| name.to_str()).unwrap_or(file);
    println!("{name:<34} {tried:>7} {:>8} {wrong:>7}", endings.len());
    Ok(wrong == 0)
}

fn main() -> ExitCode {
    let words: Vec<String> = std::env::args().collect();
    let [_, log, program, other] = words.as_slice() else {
        eprintln!("damage LOG PROGRAM OTHER");
        return ExitCode::from(2);
    };
    match compare(log, program, other) {
        Ok(true) => ExitCode::SUCCESS,
        Ok(false) => ExitCode::from(1),
        Err(error) => {
            eprintln!("{log}: {error}");
            ExitCode::from(2)
        }
    }
}
