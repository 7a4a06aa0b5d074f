//! `backup`.

use crate::args::Args;
use crate::failure::{Failure, Outcome};
use crate::opening;
use crate::output::Output;
use std::path::{Path, PathBuf};
use std::sync::Arc;
use ucstore_db::{Db, DiskFolder, Error, Options};

/// Make another directory with the same contents, and print the sequence number of the last write
#[derive(clap::Args)]
#[command(
    after_help = "DEST is absent, or whole and durable, also if the program or the machine stops. In the same file system files \
that don't change any more are linked. A program that has the database open calls the library's function `backup` instead.

Example: ucstore-db visits backup visits-monday --check"
)]
pub struct Backup {
    /// Directory to make; nothing may have its name
    dest: PathBuf,
    /// Open the backup once it is made, which reads all of it; status 3 if it doesn't end at that write
    #[arg(long)]
    check: bool,
}

impl Backup {
    pub fn run(&self, args: &Args) -> Outcome {
        let db = opening::to_write(args, false, &Options::default())?;
        let last = db
            .backup(&self.dest)
            .map_err(Failure::of_copy(&args.dir, &self.dest))?;
        opening::close(args, &db)?;
        if self.check {
            check(&self.dest, last).map_err(Failure::of(&self.dest))?;
        }
        let mut output = Output::new(args.form());
        output.line(&format!("sequence {last}"))?;
        output.finish()
    }
}

/// Opens a backup as a reader does, and checks that its last write has a sequence number.
fn check(dest: &Path, last: u64) -> Result<(), Error> {
    let folder = DiskFolder::open_beside(dest)?;
    let options = Options {
        read_only: true,
        compactors: 0,
        ..Options::default()
    };
    let found = Db::open_on(Arc::new(folder), &options)?.stats().last;
    if found == last {
        return Ok(());
    }
    Err(Error::Damaged {
        file: dest.display().to_string(),
        offset: 0,
        fault: format!("its last write is {found} instead of {last}"),
    })
}
