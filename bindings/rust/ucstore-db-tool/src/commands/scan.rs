//! `scan`.

use crate::args::Args;
use crate::failure::{Failure, Outcome};
use crate::opening;
use crate::output::Output;
use std::ffi::OsString;
use std::ops::Bound;
use ucstore_db::ucstore::end_of_prefix;

/// The bounds of a range of keys.
type Bounds = (Bound<Vec<u8>>, Bound<Vec<u8>>);

/// Print the keys of a range, with their values, in the order of the keys' bytes
#[derive(clap::Args)]
#[command(
    after_help = "Example: ucstore-db visits scan --low user/a --high user/c --reverse --limit 5"
)]
pub struct Scan {
    /// First key of the range
    #[arg(long, value_name = "KEY")]
    low: Option<OsString>,
    /// Key after the last one of the range
    #[arg(long, value_name = "KEY")]
    high: Option<OsString>,
    /// Only keys that begin with this
    #[arg(long, value_name = "BYTES", conflicts_with_all = ["low", "high"])]
    prefix: Option<OsString>,
    /// At most this many rows
    #[arg(long, value_name = "NUMBER", default_value_t = u64::MAX, hide_default_value = true)]
    limit: u64,
    /// From the last key to the first one
    #[arg(long)]
    reverse: bool,
    /// Keys without their values
    #[arg(long)]
    keys_only: bool,
    /// The number of rows alone
    #[arg(long, conflicts_with = "keys_only")]
    count: bool,
}

impl Scan {
    pub fn run(&self, args: &Args) -> Outcome {
        let bounds = self.bounds(args)?;
        let db = opening::to_read(args)?;
        let mut rows = db
            .range::<Vec<u8>>(bounds)
            .map_err(Failure::of(&args.dir))?;
        let mut output = Output::new(args.form());
        let mut count = 0;
        while count < self.limit {
            let row = match self.reverse {
                true => rows.next_row_back(),
                false => rows.next_row(),
            };
            let row = row.map_err(|error| Failure::of(&args.dir)(error.into()))?;
            let Some((key, value)) = row else { break };
            count += 1;
            match (self.count, self.keys_only) {
                (true, _) => {}
                (false, true) => output.fields(&[key])?,
                (false, false) => output.fields(&[key, value])?,
            }
        }
        if self.count {
            output.line(&count.to_string())?;
        }
        output.finish()
    }

    /// The bounds of the range.
    fn bounds(&self, args: &Args) -> Outcome<Bounds> {
        let form = args.form();
        if let Some(prefix) = &self.prefix {
            let prefix = form.word(prefix)?;
            let end = end_of_prefix(&prefix).map_or(Bound::Unbounded, Bound::Excluded);
            return Ok((Bound::Included(prefix), end));
        }
        let read = |word: &Option<OsString>| word.as_ref().map(|word| form.word(word)).transpose();
        let low = read(&self.low)?.map_or(Bound::Unbounded, Bound::Included);
        let high = read(&self.high)?.map_or(Bound::Unbounded, Bound::Excluded);
        Ok((low, high))
    }
}
