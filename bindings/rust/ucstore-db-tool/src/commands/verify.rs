//! `verify`.

use crate::args::Args;
use crate::failure::{Failure, Outcome};
use crate::opening;
use crate::output::Output;
use ucstore_db::ucstore::Ended;
use ucstore_db::WritesRead;
use ucstore_db::{
    files_of, read_writes, verify_checkpoint, CheckpointRead, Db, Error, FileKind, Folder,
    FolderFile, Options,
};

/// Read all files, print what is in each, and find damage; nothing is changed
#[derive(clap::Args)]
#[command(
    after_help = "Prints for each checkpoint and log, in the order in which an opening reads them,

  checkpoint|log NAME bytes SIZE batches B writes W sequences FIRST LAST STATE
  checkpoint NAME bytes SIZE runs R sequences FIRST LAST STATE
  run NAME bytes SIZE sequences FIRST LAST STATE

where a checkpoint of the second form is a list of run files, and STATE is `whole`, `torn OFFSET` after a crash, which an opening cuts off, `damaged OFFSET`, or `unneeded` if no opening reads the \
file, or `unlisted` for a run file if the list is damaged. Then come the other files, and `total rows R last SEQUENCE`. Takes as much memory as an opening, and the largest run file.

While another process has the database open, the files are read as they were at one moment, and `torn OFFSET` may be a write in progress.

Status 3: a file is damaged or missing. The last synced writes of a process that was killed can't be told from a torn end.

Example: ucstore-db visits verify"
)]
pub struct Verify {}

impl Verify {
    pub fn run(&self, args: &Args) -> Outcome {
        let folder = opening::still_folder(args)?;
        let files = files_of(&*folder).map_err(Failure::of(&args.dir))?;
        let opened = opening::read_from(args, folder.clone(), &Options::default());
        let damage = match &opened {
            Err(Failure::Database { error, .. }) => Some(error),
            _ => None,
        };
        let mut output = Output::new(args.form());
        let list = files.iter().find(|file| file.is_read && is_list(file));
        let list = list.map(|file| verify_checkpoint(&*folder, &file.name));
        let list = list.transpose().or_else(|error| match error {
            Error::Damaged { .. } => Ok(None),
            error => Err(Failure::of(&args.dir)(error)),
        })?;
        for file in &files {
            let line = match file.kind {
                FileKind::Run => run_line(file, list.as_ref()),
                _ if is_list(file) => list_line(file, list.as_ref(), damage),
                _ => line_of(args, &*folder, file, damage)?,
            };
            output.line(&line)?;
        }
        let (rows, last) = match &opened {
            Ok(db) => totals(db).map_err(Failure::of(&args.dir))?,
            Err(_) => {
                output.finish()?;
                return opened.map(drop);
            }
        };
        output.line(&format!("total rows {rows} last {last}"))?;
        output.finish()
    }
}

/// The number of rows, and the last sequence.
fn totals(db: &Db) -> Result<(u64, u64), Error> {
    let snapshot = db.snapshot()?;
    let mut rows = snapshot.iter()?;
    let mut count = 0;
    while rows.next_row()?.is_some() {
        count += 1;
    }
    Ok((count, snapshot.sequence()))
}

/// Whether a file is a list of run files.
fn is_list(file: &FolderFile) -> bool {
    file.kind == FileKind::Checkpoint && file.name.ends_with(".runs")
}

/// The line of a list. It is read only if an opening reads it: the runs of an older one may be gone.
fn list_line(file: &FolderFile, read: Option<&CheckpointRead>, damage: Option<&Error>) -> String {
    let read = read.filter(|_| file.is_read);
    let runs = read.map_or(&[][..], |read| &read.runs);
    let first = runs.first().map_or(0, |run| run.first);
    let last = read.map_or(0, |read| read.last);
    let state = match (file.is_read, damaged(file, damage)) {
        (false, _) => "unneeded".into(),
        (true, Some(state)) => state,
        (true, None) => "whole".into(),
    };
    let FolderFile { name, length, .. } = file;
    let count = runs.len();
    format!("checkpoint {name} bytes {length} runs {count} sequences {first} {last} {state}")
}

/// The line of a run file, of which the list tells the sequences.
fn run_line(file: &FolderFile, list: Option<&CheckpointRead>) -> String {
    let FolderFile { name, length, .. } = file;
    let mut runs = list.into_iter().flat_map(|list| &list.runs);
    let Some(run) = runs.find(|run| run.name == *name) else {
        let state = if file.is_read { "unlisted" } else { "unneeded" };
        return format!("run {name} bytes {length} sequences 0 0 {state}");
    };
    let state = match &run.fault {
        None => "whole".into(),
        Some(Error::Damaged { offset, .. }) => format!("damaged {offset}"),
        Some(_) => "missing".into(),
    };
    format!(
        "run {name} bytes {length} sequences {} {} {state}",
        run.first, run.last
    )
}

/// The line of a file.
fn line_of(
    args: &Args,
    folder: &dyn Folder,
    file: &FolderFile,
    damage: Option<&Error>,
) -> Outcome<String> {
    let (name, bytes) = (&file.name, file.length);
    let kind = match file.kind {
        FileKind::Checkpoint => "checkpoint",
        FileKind::Log => "log",
        FileKind::Operator => {
            let state = damaged(file, damage).unwrap_or_else(|| "whole".into());
            return Ok(format!("operator {name} {state}"));
        }
        FileKind::Lock => return Ok(format!("lock {name}")),
        FileKind::SetAside => return Ok(format!("aside {name} bytes {bytes}")),
        FileKind::Unfinished => return Ok(format!("unfinished {name} bytes {bytes}")),
        _ => return Ok(format!("foreign {name} bytes {bytes}")),
    };
    let read = read_writes(folder, name, |_| Ok::<(), Error>(()));
    let read = read.map_err(Failure::of(&args.dir))?;
    let first = read.first.unwrap_or(0);
    Ok(format!(
        "{kind} {name} bytes {bytes} batches {} writes {} sequences {first} {} {}",
        read.batches,
        read.writes,
        read.last,
        state_of(file, &read, damage)
    ))
}

/// The state of a file of which an opening says that it is damaged.
fn damaged(file: &FolderFile, damage: Option<&Error>) -> Option<String> {
    match damage {
        Some(Error::Damaged {
            file: name, offset, ..
        }) if *name == file.name => Some(format!("damaged {offset}")),
        _ => None,
    }
}

/// The state of a file. An opening tells damage from what a crash leaves.
fn state_of(file: &FolderFile, read: &WritesRead, damage: Option<&Error>) -> String {
    if !file.is_read {
        return "unneeded".into();
    }
    if let Some(state) = damaged(file, damage) {
        return state;
    }
    let place = match read.ended {
        Ended::Clean if read.end == read.length => return "whole".into(),
        Ended::Torn { offset } | Ended::LogFault { offset, .. } => offset,
        _ => read.end,
    };
    match file.kind {
        FileKind::Checkpoint => format!("damaged {place}"),
        _ => format!("torn {place}"),
    }
}
