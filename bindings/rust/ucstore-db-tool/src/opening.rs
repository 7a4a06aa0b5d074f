//! Openings of the database, to read it or to write.

use crate::args::Args;
use crate::failure::{Failure, Outcome};
use crate::progress::Bar;
use crate::still_folder::StillFolder;
use std::sync::Arc;
use ucstore_db::{operator_of, Db, DiskFolder, Error, Folder, Operator, Options};

/// Opens the database to read it, also while another process has it open. Nothing in its directory is changed.
pub fn to_read(args: &Args) -> Outcome<Db> {
    read_from(args, folder_beside(args)?, &Options::default())
}

/// Opens the files of the directory as they are now, also while another process changes it.
pub fn still_folder(args: &Args) -> Outcome<Arc<StillFolder>> {
    let folder = StillFolder::open(&args.dir).map_err(Failure::of(&args.dir))?;
    Ok(Arc::new(folder))
}

/// Locks the directory to read it.
pub fn folder_to_read(args: &Args) -> Outcome<Arc<DiskFolder>> {
    let folder = DiskFolder::open_to_read(&args.dir).map_err(Failure::of(&args.dir))?;
    Ok(Arc::new(folder))
}

/// Opens the directory to read it while another process may have it open.
pub fn folder_beside(args: &Args) -> Outcome<Arc<DiskFolder>> {
    let folder = DiskFolder::open_beside(&args.dir).map_err(Failure::of(&args.dir))?;
    Ok(Arc::new(folder))
}

/// Opens the database of a directory to read it, with some more options.
pub fn read_from(args: &Args, folder: Arc<dyn Folder>, options: &Options) -> Outcome<Db> {
    let bar = Bar::of_opening();
    let options = Options {
        operator: Some(operator(args, &*folder)?),
        read_only: true,
        compactors: 0,
        progress: bar.listener(),
        ..options.clone()
    };
    Db::open_on(folder, &options).map_err(Failure::of(&args.dir))
}

/// Opens the database to write. It has to be there, unless it may be made.
pub fn to_write(args: &Args, may_make: bool, options: &Options) -> Outcome<Db> {
    let dir = &args.dir;
    let is_there = match DiskFolder::open_to_read(dir) {
        // It is locked again below, and may be another's by then: this finds the operator alone.
        Ok(folder) => Some(operator(args, &folder)?),
        Err(Error::Missing { .. }) if may_make => None,
        Err(error) => return Err(Failure::of(dir)(error)),
    };
    let operator = is_there.or(args.operator());
    let bar = Bar::of_opening();
    let options = Options {
        operator,
        must_exist: is_there.is_some(),
        progress: bar.listener(),
        ..options.clone()
    };
    Db::open(dir, &options).map_err(Failure::of(dir))
}

/// Closes a database that was written to.
pub fn close(args: &Args, db: &Db) -> Outcome {
    db.close().map_err(Failure::of(&args.dir))
}

/// The merge operator: the one of the command line, or the directory's.
fn operator(args: &Args, folder: &dyn Folder) -> Outcome<Operator> {
    if let Some(operator) = args.operator() {
        return Ok(operator);
    }
    let own = operator_of(folder).map_err(Failure::of(&args.dir))?;
    own.ok_or_else(|| {
        let dir = args.dir.display();
        Failure::Refused(format!(
            "{dir} has no file OPERATOR: --operator has to name the merge operator"
        ))
    })
}
