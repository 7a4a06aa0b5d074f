//! [`verify_checkpoint`]: a checkpoint that is read without opening the database.

use crate::error::Error;
use crate::files::read_writes;
use crate::folder::Folder;
use crate::name::Name;
use crate::recovery::damaged;
use crate::run_files::load_run;
use crate::run_list::RunList;
use ucstore::Ended;

/// A checkpoint that was read.
#[derive(Clone, Debug)]
#[non_exhaustive]
pub struct CheckpointRead {
    /// Its last sequence number.
    pub last: u64,
    /// The run files that it names, the oldest first. A base names none.
    pub runs: Vec<RunRead>,
}

/// A run file that a checkpoint names.
#[derive(Clone, Debug)]
#[non_exhaustive]
pub struct RunRead {
    /// Its name.
    pub name: String,
    /// Its size in bytes, as the list says.
    pub length: u64,
    /// Its least sequence number.
    pub first: u64,
    /// Its greatest sequence number.
    pub last: u64,
    /// The reason why it can't be read: it is damaged, or missing.
    pub fault: Option<Error>,
}

impl CheckpointRead {
    /// Returns the fault of the first run file that has one.
    pub fn fault(&self) -> Option<&Error> {
        self.runs.iter().find_map(|run| run.fault.as_ref())
    }
}

/// Reads a checkpoint of a folder, a list with its runs or a base, as an opening does. At most one run file is in memory at a time.
///
/// ```
/// # use ucstore_db::{files_of, verify_checkpoint, Db, DiskFolder, Error, FileKind, Options};
/// # fn main() -> Result<(), Error> {
/// # let path = std::env::temp_dir().join(format!("ucstore-db-verified-{}", std::process::id()));
/// let db = Db::open(&path, &Options::default())?;
/// db.put("colour", "blue")?;
/// db.checkpoint()?;
/// db.close()?;
///
/// let folder = DiskFolder::open_to_read(&path)?;
/// let files = files_of(&folder)?;
/// for file in files.iter().filter(|file| file.kind == FileKind::Checkpoint) {
///     let read = verify_checkpoint(&folder, &file.name)?;
///     assert!(read.fault().is_none());
///     assert_eq!((read.last, read.runs.len()), (1, 1));
/// }
/// # drop(folder);
/// # std::fs::remove_dir_all(path).unwrap();
/// # Ok(())
/// # }
/// ```
///
/// # Errors
///
/// [`Error::Damaged`] if the list or the base is damaged, [`Error::Missing`] if the name is none of a checkpoint, [`Error::File`],
/// [`Error::Store`]. A fault of a run file is no error: [`RunRead::fault`] has it.
pub fn verify_checkpoint(folder: &dyn Folder, name: &str) -> Result<CheckpointRead, Error> {
    match Name::of(name) {
        Some(list @ Name::List(..)) => verify_list(folder, list),
        Some(base @ Name::Base(_, sequence)) => verify_base(folder, base, sequence),
        _ => Err(Error::Missing { file: name.into() }),
    }
}

/// Reads a list, and its runs.
fn verify_list(folder: &dyn Folder, name: Name) -> Result<CheckpointRead, Error> {
    let list = RunList::read(folder, name)?;
    let mut runs = Vec::with_capacity(list.runs.len());
    for run in &list.runs {
        let fault = match load_run(folder, run) {
            Err(fault @ (Error::Damaged { .. } | Error::Missing { .. })) => Some(fault),
            outcome => outcome.map(|_| None)?,
        };
        runs.push(RunRead {
            name: Name::Run(run.number).text(),
            length: run.size,
            first: run.low,
            last: run.high,
            fault,
        });
    }
    let last = list.last();
    Ok(CheckpointRead { last, runs })
}

/// Reads a base, which has to end where its name says.
fn verify_base(
    folder: &dyn Folder,
    name: Name,
    sequence: Option<u64>,
) -> Result<CheckpointRead, Error> {
    let read = read_writes(folder, &name.text(), |_| Ok::<(), Error>(()))?;
    if read.ended != Ended::Clean || read.end != read.length {
        let fault = format!("it isn't read to its end: {:?}", read.ended);
        return Err(damaged(name, read.end, fault));
    }
    match sequence {
        Some(sequence) if sequence != read.last => {
            let fault = format!("it ends at sequence {}, and not at {sequence}", read.last);
            Err(damaged(name, read.end, fault))
        }
        _ => Ok(CheckpointRead {
            last: read.last,
            runs: vec![],
        }),
    }
}
