//! `dump`.

use crate::args::Args;
use crate::failure::{Failure, Outcome};
use crate::opening;
use crate::output::Output;
use crate::progress::Bar;

/// Print all keys with their values, a line for each, as `load` reads them
#[derive(clap::Args)]
#[command(
    after_help = "Example: ucstore-db visits dump | ucstore-db copy load --create --operator counter"
)]
pub struct Dump {}

impl Dump {
    pub fn run(&self, args: &Args) -> Outcome {
        let db = opening::to_read(args)?;
        let fault = Failure::of(&args.dir);
        let mut rows = db.iter().map_err(&fault)?;
        let mut output = Output::new(args.form());
        let bar = Bar::of_rows("dumping");
        while let Some((key, value)) = rows.next_row().map_err(|error| fault(error.into()))? {
            output.fields(&[key, value])?;
            bar.add(1);
        }
        output.finish()
    }
}
