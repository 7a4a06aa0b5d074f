//! `repair`.

use crate::args::Args;
use crate::failure::{Failure, Outcome};
use crate::opening;
use crate::output::Output;
use std::path::PathBuf;
use ucstore_db::{
    files_of, read_writes, verify_checkpoint, Db, DiskFolder, Error, FileKind, FolderFile, Options,
};

/// Read a damaged directory up to the fault, write that to a new one, and print what is lost
#[derive(clap::Args)]
#[command(after_help = "Nothing in the old directory is changed. Prints

  fault FILE OFFSET: WHY        what ends the reading, if there is damage
  lost FILE bytes SIZE          what isn't read from there on, for each file
  kept rows R last SEQUENCE     what NEW has

A log or a run file that is missing can't be repaired.

Example: ucstore-db visits repair visits-repaired")]
pub struct Repair {
    /// Directory to make; nothing may have its name
    new: PathBuf,
}

impl Repair {
    pub fn run(&self, args: &Args) -> Outcome {
        let fault = Failure::of(&args.dir);
        let folder = opening::folder_to_read(args)?;
        let options = Options {
            recover_to_fault: true,
            ..Options::default()
        };
        let db = opening::read_from(args, folder.clone(), &options)?;
        let last = db
            .backup(&self.new)
            .map_err(Failure::of_copy(&args.dir, &self.new))?;
        let mut output = Output::new(args.form());
        for line in losses(&db, &folder).map_err(&fault)? {
            output.line(&line)?;
        }
        let mut rows = db.iter().map_err(&fault)?;
        let mut count: u64 = 0;
        while rows
            .next_row()
            .map_err(|error| fault(error.into()))?
            .is_some()
        {
            count += 1;
        }
        output.line(&format!("kept rows {count} last {last}"))?;
        output.finish()
    }
}

/// The damage that ended the reading, and the files that weren't read from there on.
fn losses(db: &Db, folder: &DiskFolder) -> Result<Vec<String>, Error> {
    let Some(Error::ReadOnly { cause }) = db.failure() else {
        return Ok(vec![]);
    };
    let files = files_of(folder)?;
    let mut read: Vec<&FolderFile> = files.iter().filter(|file| is_read(file)).collect();
    let places = places_of_runs(folder, &read);
    read.sort_by_key(|file| match file.kind {
        FileKind::Checkpoint => 0,
        FileKind::Run => 1 + places.iter().take_while(|name| **name != file.name).count(),
        _ => usize::MAX,
    });
    let Error::Damaged {
        file: damaged,
        offset,
        fault,
    } = &*cause
    else {
        return torn(folder, &read);
    };
    let mut lines = vec![format!("fault {damaged} {offset}: {fault}")];
    let rest = read.iter().skip_while(|file| file.name != *damaged);
    for file in rest {
        let kept = match file.name == *damaged && has_writes(file) {
            true => read_writes(folder, damaged, |_| Ok::<(), Error>(()))?.end,
            false => 0,
        };
        if file.length > kept {
            lines.push(lost(&file.name, file.length - kept));
        }
    }
    Ok(lines)
}

/// Lists the bytes that a crash left at the end of the last log.
fn torn(folder: &DiskFolder, read: &[&FolderFile]) -> Result<Vec<String>, Error> {
    let mut lines = vec![];
    for file in read.iter().filter(|file| has_writes(file)) {
        let end = read_writes(folder, &file.name, |_| Ok::<(), Error>(()))?.end;
        if file.length > end {
            lines.push(lost(&file.name, file.length - end));
        }
    }
    Ok(lines)
}

fn lost(name: &str, bytes: u64) -> String {
    format!("lost {name} bytes {bytes}")
}

/// The run files in the order in which an opening reads them, if the list that names them can be read.
fn places_of_runs(folder: &DiskFolder, read: &[&FolderFile]) -> Vec<String> {
    let list = read.iter().find(|file| file.kind == FileKind::Checkpoint);
    let list = list.and_then(|list| verify_checkpoint(folder, &list.name).ok());
    let runs = list.into_iter().flat_map(|list| list.runs);
    runs.map(|run| run.name).collect()
}

/// Whether a file of data is one that an opening reads.
fn is_read(file: &FolderFile) -> bool {
    let kinds = [FileKind::Checkpoint, FileKind::Run, FileKind::Log];
    file.is_read && kinds.contains(&file.kind)
}

/// Whether a file is a log, or a checkpoint in the format of one.
fn has_writes(file: &FolderFile) -> bool {
    file.kind == FileKind::Log || file.kind == FileKind::Checkpoint && !file.name.ends_with(".runs")
}
