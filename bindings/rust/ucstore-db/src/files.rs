//! [`files_of`] and [`read_writes`]: the files of a folder, and the writes that they hold, without opening the database.

use crate::error::Error;
use crate::folder::Folder;
use crate::name::Name;
use crate::operator_file::OPERATOR;
use crate::run_list::RunList;
use crate::windows::Windows;
use std::cmp::Ordering;
use std::io::ErrorKind;
use std::ops::ControlFlow;
use ucstore::{log_writes_at, BatchFault, Ended, LogPlace, Write};

/// The kind of a file in a folder.
#[derive(Clone, Copy, Debug, PartialEq, Eq)]
#[non_exhaustive]
pub enum FileKind {
    /// A checkpoint: a list of run files, or a base, which has rows.
    Checkpoint,
    /// A run file, which a list may name.
    Run,
    /// A write-ahead log.
    Log,
    /// The file that names the merge operator.
    Operator,
    /// The file that is locked.
    Lock,
    /// Bytes that an opening has cut off a log. Nothing reads them.
    SetAside,
    /// A file that was being written. An opening removes it.
    Unfinished,
    /// A file of somebody else.
    Foreign,
}

/// A file in a folder.
#[derive(Clone, Debug, PartialEq, Eq)]
#[non_exhaustive]
pub struct FolderFile {
    /// Its name.
    pub name: String,
    /// Its kind.
    pub kind: FileKind,
    /// Its length in bytes.
    pub length: u64,
    /// Whether an opening reads it. An older log or checkpoint, of which a later checkpoint has all, isn't read, nor a run file that the
    /// newest checkpoint doesn't name.
    pub is_read: bool,
}

/// The writes that were read of a log or a checkpoint.
#[derive(Clone, Copy, Debug, PartialEq, Eq)]
#[non_exhaustive]
pub struct WritesRead {
    /// The number of batches that have writes.
    pub batches: u64,
    /// The number of writes.
    pub writes: u64,
    /// The sequence of the first write, if there is one.
    pub first: Option<u64>,
    /// The sequence of the last write: 0 if there is none.
    pub last: u64,
    /// The offset after the last whole batch.
    pub end: u64,
    /// How reading ended.
    pub ended: Ended,
    /// The length of the file in bytes.
    pub length: u64,
}

/// Returns the files of a folder: first checkpoints and logs, in the order in which an opening reads them, then run files by number, and
/// then the others by name. One that an owner removes meanwhile may be left out. If the newest list is damaged, all run files count as
/// read.
///
/// # Errors
///
/// [`Error::File`].
pub fn files_of(folder: &dyn Folder) -> Result<Vec<FolderFile>, Error> {
    let texts = folder.names().map_err(Error::of_file(""))?;
    let mut found: Vec<(Option<Name>, String)> = texts
        .into_iter()
        .map(|text| (Name::of(&text), text))
        .collect();
    found.sort_by(order);
    let newest = Name::newest(found.iter().filter_map(|(name, _)| *name));
    let runs = runs_of(folder, newest)?;
    let files = found.into_iter().filter_map(|(name, text)| {
        let length = match folder.length(&text) {
            Err(error) if error.kind() == ErrorKind::NotFound => return None,
            outcome => outcome.map_err(Error::of_file(&text)),
        };
        Some(length.map(|length| FolderFile {
            kind: kind_of(name, &text),
            length,
            is_read: is_read(name, newest, runs.as_deref()) || text == OPERATOR,
            name: text,
        }))
    });
    files.collect()
}

/// The numbers of the run files that the newest checkpoint names; none if it can't be read.
fn runs_of(folder: &dyn Folder, newest: Option<Name>) -> Result<Option<Vec<u64>>, Error> {
    let Some(name @ Name::List(..)) = newest else {
        return Ok(Some(vec![]));
    };
    match RunList::read(folder, name) {
        Ok(list) => Ok(Some(list.numbers())),
        Err(Error::Damaged { .. }) => Ok(None),
        Err(error) if error.is_not_found() => Ok(None),
        Err(error) => Err(error),
    }
}

/// The order of two files: a checkpoint comes before the log that goes on after it.
fn order(one: &(Option<Name>, String), other: &(Option<Name>, String)) -> Ordering {
    let place = |name: Option<Name>| match name {
        Some(name @ (Name::Base(..) | Name::List(..))) => {
            let (number, sequence, is_list) = name.checkpoint().unwrap_or_default();
            (0, number, 0, sequence, is_list)
        }
        Some(Name::Log(number)) => (0, number, 1, None, false),
        Some(Name::Run(number)) => (1, number, 0, None, false),
        _ => (2, 0, 0, None, false),
    };
    place(one.0)
        .cmp(&place(other.0))
        .then_with(|| one.1.cmp(&other.1))
}

fn kind_of(name: Option<Name>, text: &str) -> FileKind {
    match name {
        Some(Name::Base(..) | Name::List(..)) => FileKind::Checkpoint,
        Some(Name::Run(_)) => FileKind::Run,
        Some(Name::Log(_)) => FileKind::Log,
        Some(Name::Lost(..)) => FileKind::SetAside,
        Some(Name::Partial(_) | Name::NewLog(_) | Name::NewLost(_) | Name::NewList(_)) => {
            FileKind::Unfinished
        }
        None if text == OPERATOR => FileKind::Operator,
        None if text == "LOCK" => FileKind::Lock,
        None => FileKind::Foreign,
    }
}

/// Whether an opening reads a file of a folder that has this newest checkpoint, which names some runs.
fn is_read(name: Option<Name>, newest: Option<Name>, runs: Option<&[u64]>) -> bool {
    let least = newest.and_then(Name::checkpoint);
    match name {
        Some(Name::Log(number)) => least.is_none_or(|(least, ..)| number >= least),
        Some(Name::Base(..) | Name::List(..)) => name == newest,
        Some(Name::Run(number)) => runs.is_none_or(|runs| runs.contains(&number)),
        _ => false,
    }
}

/// Visits each write of a log or a base of a folder, in order, up to the end of the file or to its first fault. The file is read a
/// window at a time.
///
/// ```
/// # use ucstore_db::{files_of, read_writes, Db, DiskFolder, Error, FileKind, Options};
/// # fn main() -> Result<(), Error> {
/// # let path = std::env::temp_dir().join(format!("ucstore-db-files-{}", std::process::id()));
/// let db = Db::open(&path, &Options::default())?;
/// db.put("colour", "blue")?;
/// db.close()?;
///
/// let folder = DiskFolder::open_to_read(&path)?;
/// for file in files_of(&folder)?.iter().filter(|file| file.kind == FileKind::Log) {
///     let read = read_writes(&folder, &file.name, |write| {
///         println!("{write:?}");
///         Ok::<(), Error>(())
///     })?;
///     assert_eq!(read.writes, 1);
/// }
/// # drop(folder);
/// # std::fs::remove_dir_all(path).unwrap();
/// # Ok(())
/// # }
/// ```
///
/// # Errors
///
/// The visitor's, [`Error::Missing`] if the name is none of a log or a base, [`Error::File`], [`Error::Store`]. A fault of the file
/// is no error: [`WritesRead::ended`] has it.
pub fn read_writes<E: From<Error>>(
    folder: &dyn Folder,
    name: &str,
    mut visit: impl FnMut(Write<&[u8]>) -> Result<(), E>,
) -> Result<WritesRead, E> {
    let missing = || Error::Missing { file: name.into() };
    let name = Name::of(name)
        .filter(|it| matches!(it, Name::Log(_) | Name::Base(..)))
        .ok_or_else(missing)?;
    let mut windows = Windows::of(folder, name)?;
    let mut read = WritesRead {
        batches: 0,
        writes: 0,
        first: None,
        last: 0,
        end: 0,
        ended: Ended::Clean,
        length: windows.length(),
    };
    loop {
        let begin = windows.begin();
        let place = LogPlace {
            offset: read.end - begin,
            last: read.last,
        };
        let before = read.batches;
        let mut writes = log_writes_at(windows.bytes(), place);
        loop {
            let is_first = writes.is_between_batches();
            let Some(write) = writes.next_write().map_err(Error::from)? else {
                break;
            };
            read.batches += u64::from(is_first);
            read.writes += 1;
            read.first.get_or_insert(write.sequence);
            read.last = write.sequence;
            visit(write)?;
        }
        read.end = begin + writes.offset();
        let ended = writes.ended().expect("no write is left");
        match windows.go_on(read.end, ended)? {
            ControlFlow::Continue(offset) => read.end = offset,
            ControlFlow::Break(ended) => {
                read.ended = numbered(ended, before);
                return Ok(read);
            }
        }
    }
}

/// How a file ends, by how a window does that begins after a number of its batches.
fn numbered(ended: Ended, batches: u64) -> Ended {
    match ended {
        Ended::BatchFault { payload, fault } if fault != BatchFault::OutOfMemory => {
            let payload = payload + batches;
            Ended::BatchFault { payload, fault }
        }
        other => other,
    }
}

#[cfg(test)]
mod tests {
    use super::*;

    #[test]
    fn a_checkpoint_comes_before_its_log() {
        let texts = [
            "000002.log",
            "LOCK",
            "000002-7.base",
            "000001.log",
            "OPERATOR",
            "000002-5.base",
            "000001.log.lost",
        ];
        let mut found = texts.map(|text| (Name::of(text), text.to_string()));
        found.sort_by(order);
        let sorted = found.clone().map(|(_, text)| text);
        assert_eq!(
            sorted,
            [
                "000001.log",
                "000002-5.base",
                "000002-7.base",
                "000002.log",
                "000001.log.lost",
                "LOCK",
                "OPERATOR",
            ]
        );
        let base = Some(Name::Base(2, Some(7)));
        let are_read = found.map(|(name, _)| is_read(name, base, Some(&[])));
        assert_eq!(are_read, [false, false, true, true, false, false, false]);
        assert!(is_read(Some(Name::Log(1)), None, Some(&[])));
        let list = Some(Name::List(2, 7));
        let run = |number| is_read(Some(Name::Run(number)), list, Some(&[3, 5]));
        assert_eq!([3, 4, 5].map(run), [true, false, true]);
        assert!(is_read(list, list, None) && is_read(Some(Name::Run(4)), list, None));
    }
}
