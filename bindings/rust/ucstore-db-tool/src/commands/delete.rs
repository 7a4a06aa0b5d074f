//! `delete`.

use crate::args::Args;
use crate::failure::{Failure, Outcome};
use crate::opening;
use std::ffi::OsString;
use ucstore_db::Options;

/// Delete a key, whether it has a value or not
#[derive(clap::Args)]
#[command(after_help = "Example: ucstore-db visits delete colour")]
pub struct Delete {
    /// Key
    key: OsString,
}

impl Delete {
    pub fn run(&self, args: &Args) -> Outcome {
        let key = args.form().word(&self.key)?;
        let db = opening::to_write(args, false, &Options::default())?;
        db.delete(key).map_err(Failure::of(&args.dir))?;
        opening::close(args, &db)
    }
}
