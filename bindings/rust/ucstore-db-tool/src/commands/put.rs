//! `put`.

use crate::args::Args;
use crate::failure::{Failure, Outcome};
use crate::opening;
use std::ffi::OsString;
use ucstore_db::Options;

/// Set a key to a value
#[derive(clap::Args)]
#[command(after_help = "It is durable when the program ends with status 0.

Example: ucstore-db visits put colour blue --create --operator append")]
pub struct Put {
    /// Key
    key: OsString,
    /// Value
    value: OsString,
    /// Make the database if there is none, with the merge operator of --operator, or else `mixed`
    #[arg(long)]
    create: bool,
}

impl Put {
    pub fn run(&self, args: &Args) -> Outcome {
        let (key, value) = (args.form().word(&self.key)?, args.form().word(&self.value)?);
        let db = opening::to_write(args, self.create, &Options::default())?;
        db.put(key, value).map_err(Failure::of(&args.dir))?;
        opening::close(args, &db)
    }
}
