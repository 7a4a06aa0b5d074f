//! `load`.

use crate::args::Args;
use crate::failure::{Failure, Outcome};
use crate::form::Form;
use crate::opening;
use crate::progress::Bar;
use std::io::{self, BufRead, BufReader};
use ucstore_db::{Batch, Db, Options, Sync};

/// The most rows and bytes of a batch.
const MOST_ROWS: u64 = 1000;
const MOST_BYTES: usize = 1 << 20;

/// The size in bytes of a piece of input.
const PIECE: usize = 64 << 10;

/// Put the rows of standard input, which has a line with a key, a tab and a value for each
#[derive(clap::Args)]
#[command(
    after_help = "Rows are written in batches. A line with a fault ends the program with status 2, after the rows before \
it. All is durable when it ends.

Example: ucstore-db visits dump | ucstore-db copy load --create --operator counter"
)]
pub struct Load {
    /// Make the database if there is none, with the merge operator of --operator, or else `mixed`
    #[arg(long)]
    create: bool,
}

/// The rows of an input.
struct Lines<R> {
    input: R,
    form: Form,
    line: Vec<u8>,
    /// The number of lines read.
    number: u64,
}

impl Load {
    pub fn run(&self, args: &Args) -> Outcome {
        // One sync at the end is enough: what a crash leaves is loaded again.
        let options = Options {
            sync: Sync::Never,
            ..Options::default()
        };
        let db = opening::to_write(args, self.create, &options)?;
        let loaded = load(args, &db);
        // The rows before a fault stay.
        opening::close(args, &db)?;
        loaded
    }
}

/// Writes all rows of standard input.
fn load(args: &Args, db: &Db) -> Outcome {
    let mut lines = Lines::of(
        BufReader::with_capacity(PIECE, io::stdin().lock()),
        args.form(),
    );
    let bar = Bar::of_rows("loading");
    let mut batch = Batch::new();
    let mut bytes = 0;
    let write = |batch: &mut Batch| {
        db.write(batch).map_err(Failure::of(&args.dir))?;
        bar.add(batch.len() as u64);
        batch.clear();
        Ok(())
    };
    let outcome = loop {
        let (key, value) = match lines.next_row() {
            Ok(Some(row)) => row,
            Ok(None) => break Ok(()),
            Err(failure) => break Err(failure),
        };
        bytes += key.len() + value.len();
        let added = batch.put(key, value).map(drop);
        added.map_err(|error| Failure::of(&args.dir)(error.into()))?;
        if batch.len() as u64 >= MOST_ROWS || bytes >= MOST_BYTES {
            write(&mut batch)?;
            bytes = 0;
        }
    };
    if !batch.is_empty() {
        write(&mut batch)?;
    }
    db.sync().map_err(Failure::of(&args.dir))?;
    outcome
}

impl<R: BufRead> Lines<R> {
    fn of(input: R, form: Form) -> Lines<R> {
        Lines {
            input,
            form,
            line: vec![],
            number: 0,
        }
    }

    /// The key and the value of the next line.
    fn next_row(&mut self) -> Outcome<Option<(Vec<u8>, Vec<u8>)>> {
        self.line.clear();
        let input = &mut self.input;
        let size = input.read_until(b'\n', &mut self.line).map_err(fault)?;
        if size == 0 {
            return Ok(None);
        }
        self.number += 1;
        let line = self.line.strip_suffix(b"\n").unwrap_or(&self.line);
        let row = row_of(line, self.form).map_err(|why| {
            Failure::Refused(format!("standard input, line {}: {why}", self.number))
        })?;
        Ok(Some(row))
    }
}

/// The key and the value of a line, or why there are none.
fn row_of(line: &[u8], form: Form) -> Result<(Vec<u8>, Vec<u8>), &'static str> {
    let mut fields = line.split(|byte| *byte == b'\t');
    match (fields.next(), fields.next(), fields.next()) {
        (Some(key), Some(value), None) => Ok((form.read(key)?, form.read(value)?)),
        (_, None, _) => Err("no tab between a key and a value"),
        _ => Err("more than one tab"),
    }
}

fn fault(error: io::Error) -> Failure {
    Failure::Stream {
        stream: "standard input",
        error,
    }
}
