//! Prints the writes of a log as `ucstore dump` does, in plain Rust, to measure it against.
//!
//! It reads standard input whole, goes through the records with their checksums, decodes each batch and
//! prints a line for each write, and then how the log ended. The status is 0 where the log ended cleanly or
//! is torn, 3 after a fault, and 5 where a device failed or the input is too long.

#[path = "../log.rs"]
mod log;

use log::{Ended, LogReader, Op, read_batch};
use std::io::{self, BufWriter, Read, Write};
use std::process::ExitCode;

const INPUT_LIMIT: u64 = 67_108_864;

/// Two digits for each byte.
static DIGITS: [[u8; 2]; 256] = {
    let mut digits = [[0; 2]; 256];
    let mut byte = 0;
    while byte < 256 {
        digits[byte] = [
            b"0123456789abcdef"[byte / 16],
            b"0123456789abcdef"[byte % 16],
        ];
        byte += 1;
    }
    digits
};

fn push_field(line: &mut Vec<u8>, bytes: &[u8]) {
    line.push(b' ');
    if bytes.is_empty() {
        line.push(b'.');
    }
    line.extend(bytes.iter().flat_map(|byte| DIGITS[*byte as usize]));
}

fn push_line(line: &mut Vec<u8>, seq: u64, op: Op) -> io::Result<()> {
    let (word, first, second) = match op {
        Op::Put(key, value) => ("put", key, Some(value)),
        Op::Delete(key) => ("delete", key, None),
        Op::Merge(key, operand) => ("merge", key, Some(operand)),
        Op::Range(begin, end) => ("range", begin, Some(end)),
    };
    write!(line, "{seq} {word}")?;
    push_field(line, first);
    if let Some(second) = second {
        push_field(line, second);
    }
    line.push(b'\n');
    Ok(())
}

/// Prints the writes of a log, and gives how it ended.
fn dump(log: &[u8], out: &mut impl Write) -> io::Result<Ended> {
    let mut reader = LogReader::new(log);
    let mut line = Vec::new();
    let (mut last, mut number) = (0, 0);
    loop {
        let payload = match reader.payload() {
            Ok(payload) => payload,
            Err(ended) => return Ok(ended),
        };
        number += 1;
        let mut ops = Vec::new();
        let seq = match read_batch(payload, last, &mut ops) {
            Ok(seq) => seq,
            Err(fault) => return Ok(Ended::Batch(number, fault)),
        };
        for (op, seq) in ops.iter().zip(seq..) {
            line.clear();
            push_line(&mut line, seq, *op)?;
            out.write_all(&line)?;
            last = seq;
        }
    }
}

fn run() -> io::Result<ExitCode> {
    let mut log = Vec::new();
    let count = io::stdin()
        .lock()
        .take(INPUT_LIMIT + 1)
        .read_to_end(&mut log)?;
    let mut out = BufWriter::with_capacity(65_536, io::stdout().lock());
    if count as u64 > INPUT_LIMIT {
        writeln!(out, "input too long")?;
        out.flush()?;
        return Ok(ExitCode::from(5));
    }
    let ended = dump(&log, &mut out)?;
    writeln!(out, "{ended}")?;
    out.flush()?;
    Ok(match ended {
        Ended::Clean | Ended::Torn(_) => ExitCode::SUCCESS,
        Ended::Log(..) | Ended::Batch(..) => ExitCode::from(3),
    })
}

fn main() -> ExitCode {
    run().unwrap_or_else(|error| {
        eprintln!("{error}");
        ExitCode::from(5)
    })
}
