//! `merge`.

use crate::args::Args;
use crate::failure::{Failure, Outcome};
use crate::opening;
use std::ffi::OsString;
use ucstore_db::Options;

/// Merge an operand into the value of a key
#[derive(clap::Args)]
#[command(
    after_help = "An operand of `mixed` is its payload, the payload's length and the operator's number; that of a counter has 8 \
bytes, the least significant first. It is durable when the program ends with status 0.

Example: ucstore-db visits --hex merge 766973697473 02000000000000000801"
)]
pub struct Merge {
    /// Key
    key: OsString,
    /// Operand
    operand: OsString,
    /// Make the database if there is none, with the merge operator of --operator, or else `mixed`
    #[arg(long)]
    create: bool,
}

impl Merge {
    pub fn run(&self, args: &Args) -> Outcome {
        let form = args.form();
        let (key, operand) = (form.word(&self.key)?, form.word(&self.operand)?);
        let db = opening::to_write(args, self.create, &Options::default())?;
        db.merge(key, operand).map_err(Failure::of(&args.dir))?;
        opening::close(args, &db)
    }
}
