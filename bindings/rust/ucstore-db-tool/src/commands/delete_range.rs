//! `delete-range`.

use crate::args::Args;
use crate::failure::{Failure, Outcome};
use crate::opening;
use std::ffi::OsString;
use ucstore_db::Options;

/// Delete the keys from BEGIN to below END, by one write
#[derive(clap::Args)]
#[command(after_help = "Example: ucstore-db visits delete-range user/ user0")]
pub struct DeleteRange {
    /// First key
    begin: OsString,
    /// Key after the last one
    end: OsString,
}

impl DeleteRange {
    pub fn run(&self, args: &Args) -> Outcome {
        let (begin, end) = (args.form().word(&self.begin)?, args.form().word(&self.end)?);
        let db = opening::to_write(args, false, &Options::default())?;
        db.delete_range(begin, end)
            .map_err(Failure::of(&args.dir))?;
        opening::close(args, &db)
    }
}
