//! Counts the words of files into a folder, each file by a thread, each line at once, and prints how often each came:
//!
//!     words FOLDER FILE..

use std::error::Error;
use std::{env, fs, thread};
use ucstore_db::{Batch, Db, Operator, Options};

fn main() -> Result<(), Box<dyn Error>> {
    let (folder, files) = (env::args().nth(1), env::args().skip(2));
    let options = Options {
        operator: Some(Operator::Counter),
        ..Default::default()
    };
    let db = Db::open(folder.ok_or("words FOLDER FILE..")?, &options)?;
    let counters: Vec<_> = files
        .map(|file| {
            let db = db.clone();
            thread::spawn(move || count(&db, &file).map_err(|error| error.to_string()))
        })
        .collect();
    for counter in counters {
        counter.join().expect("a thread ends")?;
    }
    let mut rows = db.iter()?;
    while let Some((word, count)) = rows.next_row()? {
        let count = u64::from_le_bytes(count.try_into()?);
        println!("{} {count}", String::from_utf8_lossy(word));
    }
    Ok(db.close()?)
}

/// Counts the words of a file. A line is on the device before the next one is read.
fn count(db: &Db, file: &str) -> Result<(), Box<dyn Error>> {
    for line in fs::read_to_string(file)?.lines() {
        let mut batch = Batch::new();
        for word in line.split_whitespace() {
            batch.merge(word, 1u64.to_le_bytes())?;
        }
        db.write(&batch)?;
    }
    Ok(())
}
