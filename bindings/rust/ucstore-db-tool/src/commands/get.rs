//! `get`.

use crate::args::Args;
use crate::failure::{Failure, Outcome};
use crate::opening;
use crate::output::Output;
use std::ffi::OsString;

/// Print the value of a key
#[derive(clap::Args)]
#[command(after_help = "Status 1: the key has no value.\n\nExample: ucstore-db visits get colour")]
pub struct Get {
    /// Key
    key: OsString,
}

impl Get {
    pub fn run(&self, args: &Args) -> Outcome {
        let form = args.form();
        let key = form.word(&self.key)?;
        let db = opening::to_read(args)?;
        let value = db.get(key).map_err(Failure::of(&args.dir))?;
        let value = value.ok_or(Failure::NoValue)?;
        let mut output = Output::new(form);
        output.fields(&[&value])?;
        output.finish()
    }
}
