//! Writes numbered batches to a database until it is killed, for the program `cases/beside`:
//!
//!     owner DIR
//!
//! Batch N sets the keys `n`, and `a` and `b` with the last two digits of N, to N and a filler. N is printed once it is acknowledged.

use std::io::{self, Write};
use ucstore_db::{Batch, Db, Error, Options, Sync};

/// From how many batches on a checkpoint is made, and the next log.
const CHECKPOINT: u64 = 150;
const NEXT_LOG: u64 = 37;

fn main() -> Result<(), Error> {
    let dir = std::env::args_os().nth(1).expect("a directory");
    let mut options = Options {
        sync: Sync::EveryMs(20),
        ..Options::default()
    };
    options.store.write_buffer_size = 20_000;
    let db = Db::open(dir, &options)?;
    for number in last(&db)? + 1.. {
        db.write(&batch_of(number)?)?;
        let line = format!("{number}\n");
        io::stdout().write_all(line.as_bytes()).expect("a reader");
        if number.is_multiple_of(CHECKPOINT) {
            db.checkpoint()?;
        } else if number.is_multiple_of(NEXT_LOG) {
            db.next_log()?;
        }
    }
    db.close()
}

/// The number of the last batch.
fn last(db: &Db) -> Result<u64, Error> {
    let value = db.get("n")?.unwrap_or_default();
    let digits = value.split(|byte| *byte == b' ').next().unwrap_or_default();
    Ok(String::from_utf8_lossy(digits).parse().unwrap_or(0))
}

fn batch_of(number: u64) -> Result<Batch, Error> {
    // Some records are longer than what is written at once.
    let filler = match number % 50 {
        0 => 200_000,
        other => other * 7,
    };
    let value = format!("{number} {}", "x".repeat(filler as usize));
    let mut batch = Batch::new();
    batch
        .put("n", &value)?
        .put(format!("a{:02}", number % 100), &value)?
        .put(format!("b{:02}", number % 100), &value)?;
    Ok(batch)
}
