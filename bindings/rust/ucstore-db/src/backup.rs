//! Backups: another folder with what a database has at a moment, while others write.
//!
//! 1. The log is ended, and what is written from then on goes to the next one. So the newest checkpoint and the logs from its number up
//!    to the one that was ended have all writes up to a moment, are durable, and aren't changed any more: an opening that keeps such a
//!    log copies it first, and a file that isn't needed is only removed.
//! 2. Those files are linked into the backup, or copied where that can't be. No checkpoint removes one meanwhile: the lock
//!    `checkpointing` is held.
//! 3. An empty log of the next number, and the file that names the operator, are made there. All is durable before it gets its name.
//!
//! A database in memory, and one that takes no writes any more, is written as a checkpoint.

use crate::base_file::Base;
use crate::db::Db;
use crate::disk_folder::is_database;
use crate::error::Error;
use crate::folder::Folder;
use crate::lock;
use crate::name::Name;
use crate::operator_file;
use crate::partial::Partial;
use crate::run_list::RunList;
use crate::shared::Shared;
use crate::staging::Staging;
use std::fs;
use std::io;
use std::os::unix::fs::PermissionsExt;
use std::path::Path;
use std::sync::atomic::Ordering;
use std::sync::Arc;
use ucstore::View;

/// The number of bytes that are copied at a time.
const PIECE: usize = 1 << 20;

/// The number of the log that goes on after the checkpoint of a database that isn't copied.
const FIRST: u64 = 2;

/// The files that have all writes up to a moment.
struct Ended {
    folder: Arc<dyn Folder>,
    /// The number of the log that goes on after them.
    number: u64,
    /// The sequence of the last write.
    last: u64,
}

impl Db {
    /// Writes what it has now to another folder, which is a database of its own, and returns the sequence of the last write in it. Others
    /// write meanwhile; a checkpoint waits. The folder is durable once it has its name. Until then it has the name with `.new-` and a
    /// number after it: a crash may leave it there, and it may be removed.
    ///
    /// The log is ended, and files that don't change any more are linked, if the new folder is in the same file system: the two share their bytes on
    /// the device. The others are copied, and read again. Others may do with the new folder what they may do with the old one, at most.
    /// A database in memory, and one that takes no writes any more, is written as a checkpoint.
    ///
    /// ```
    /// # use ucstore_db::{Db, Options};
    /// # fn main() -> Result<(), ucstore_db::Error> {
    /// # let path = std::env::temp_dir().join(format!("ucstore-db-backup-{}", std::process::id()));
    /// # std::fs::create_dir(&path).unwrap();
    /// let db = Db::open(path.join("visits"), &Options::default())?;
    /// db.put("colour", "blue")?;
    /// assert_eq!(db.backup(path.join("backup"))?, 1);
    /// db.put("colour", "red")?;
    ///
    /// let backup = Db::open(path.join("backup"), &Options::default())?;
    /// assert_eq!(backup.get("colour")?, Some(b"blue".to_vec()));
    /// # drop((db, backup));
    /// # std::fs::remove_dir_all(path).unwrap();
    /// # Ok(())
    /// # }
    /// ```
    ///
    /// # Errors
    ///
    /// [`Error::File`], also if something has the name, [`Error::Damaged`] if a copy isn't read as it was written, [`Error::Store`],
    /// [`Error::ReadOnly`] if the log can't be ended, [`Error::Closed`], also if it is closed meanwhile, which waits for that. Nothing has the
    /// name then, unless the last sync failed: the backup is whole, but may not be durable.
    pub fn backup(&self, path: impl AsRef<Path>) -> Result<u64, Error> {
        let shared = self.shared();
        let own = lock(&shared.log)
            .as_ref()
            .and_then(|log| log.folder.path().map(Path::to_path_buf));
        let staging = Staging::create(path.as_ref(), own.as_deref())?;
        let last = shared.backup(staging.folder())?;
        staging.publish()?;
        Ok(last)
    }

    /// Writes what it has now to an empty folder of another device, as [`backup`](Db::backup) does, and returns the sequence of the last
    /// write in it. It is durable, and a database of its own, once this returns.
    ///
    /// # Errors
    ///
    /// As [`backup`](Db::backup); [`Error::File`] if a database is in the folder.
    pub fn backup_on(&self, folder: &dyn Folder) -> Result<u64, Error> {
        self.shared().backup(folder)
    }
}

impl Shared {
    /// Writes what the database has now to an empty folder, durably. Returns the sequence of the last write that the folder has.
    pub(crate) fn backup(&self, target: &dyn Folder) -> Result<u64, Error> {
        let held = target.names().map_err(of_target(target, ""))?;
        if let Some(name) = held.iter().find(|name| is_database(name)) {
            let error = io::Error::from(io::ErrorKind::AlreadyExists);
            return Err(of_target(target, name)(error));
        }
        let outcome = self.write_backup(target);
        // Events report a log that was ended, or that it failed.
        self.events.tell();
        outcome
    }

    fn write_backup(&self, target: &dyn Folder) -> Result<u64, Error> {
        let _checkpointing = lock(&self.checkpointing);
        let last = match self.end_log()? {
            Some(ended) => self.copy_files(&ended, target)?,
            None => self.write_rows(&self.view()?, target)?,
        };
        // This syncs the names of all files.
        operator_file::write(target, self.options.operator()).map_err(in_target(target))?;
        Ok(last)
    }

    /// Goes on in a new log. There is none in memory, and if the database takes no writes any more. Requires `checkpointing` held.
    fn end_log(&self) -> Result<Option<Ended>, Error> {
        match self.failure() {
            Some(Error::Closed) => return Err(Error::Closed),
            Some(_) => return Ok(None),
            None => self.next_log()?,
        }
        let log = lock(&self.log);
        // Another thread may have ended the log once more: it was durable then too.
        Ok(log.as_ref().map(|log| Ended {
            folder: Arc::clone(&log.folder),
            number: log.number(),
            last: log.before,
        }))
    }

    /// Copies the files that were ended, and makes the log that goes on after them.
    fn copy_files(&self, ended: &Ended, target: &dyn Folder) -> Result<u64, Error> {
        let source = &*ended.folder;
        let texts = source.names().map_err(Error::of_file(""))?;
        let names: Vec<Name> = texts.iter().filter_map(|text| Name::of(text)).collect();
        let newest = Name::newest(names.iter().copied());
        let least = newest.and_then(Name::checkpoint);
        let least = least.map_or(0, |(number, ..)| number);
        let runs = match newest {
            Some(name @ Name::List(..)) => RunList::read(source, name)?.numbers(),
            _ => vec![],
        };
        let is_kept = |name: &Name| match *name {
            Name::Log(number) => (least..ended.number).contains(&number),
            Name::Run(number) => runs.contains(&number),
            name => Some(name) == newest,
        };
        // It comes first: a file that is linked is never made anew.
        make_log(target, ended.number)?;
        for name in names.into_iter().filter(is_kept) {
            self.transfer(source, &name.text(), target)?;
        }
        Ok(ended.last)
    }

    /// Writes the rows of a view as a checkpoint, and makes the log that goes on after it.
    fn write_rows(&self, view: &View, target: &dyn Folder) -> Result<u64, Error> {
        let check = || self.check_open();
        // The log is there before the checkpoint of its number.
        make_log(target, FIRST)?;
        let mut base = Base::write(target, FIRST, view, &check).map_err(in_target(target))?;
        base.sync(&check).map_err(in_target(target))?;
        base.rename().map_err(in_target(target))?;
        Ok(view.last())
    }

    /// Links a file of a folder into another one, or copies it.
    fn transfer(&self, source: &dyn Folder, name: &str, target: &dyn Folder) -> Result<(), Error> {
        if let (Some(from), Some(to)) = (source.path(), target.path()) {
            // Another file system, or one without links.
            if fs::hard_link(from.join(name), to.join(name)).is_ok() {
                return Ok(());
            }
        }
        let length = source.length(name).map_err(Error::of_file(name))?;
        let mut copy =
            Partial::create(target, format!("{name}.copy")).map_err(in_target(target))?;
        if let (Some(from), Some(to)) = (source.path(), target.path()) {
            narrow(&from.join(name), &to.join(format!("{name}.copy")))
                .map_err(of_target(target, name))?;
        }
        self.each_piece(source, name, length, |_, piece| {
            copy.append(piece).map_err(in_target(target))
        })?;
        copy.sync().map_err(in_target(target))?;
        copy.rename(name).map_err(in_target(target))?;
        // It is read again, as a checkpoint is.
        self.each_piece(source, name, length, |offset, piece| {
            let read = target.read_at(name, offset, piece.len());
            match read.map_err(of_target(target, name))? == piece {
                true => Ok(()),
                false => Err(Error::Damaged {
                    file: text_of(target, name),
                    offset,
                    fault: "what is read isn't what was written".into(),
                }),
            }
        })
    }

    /// Reads a file piece by piece.
    fn each_piece(
        &self,
        folder: &dyn Folder,
        name: &str,
        length: u64,
        mut visit: impl FnMut(u64, &[u8]) -> Result<(), Error>,
    ) -> Result<(), Error> {
        let mut offset = 0;
        while offset < length {
            self.check_open()?;
            let most = (length - offset).min(PIECE as u64) as usize;
            let piece = folder
                .read_at(name, offset, most)
                .map_err(Error::of_file(name))?;
            if piece.is_empty() {
                let error = io::Error::from(io::ErrorKind::UnexpectedEof);
                return Err(Error::of_file(name)(error));
            }
            visit(offset, &piece)?;
            offset += piece.len() as u64;
        }
        Ok(())
    }

    /// Checks that no close waits.
    fn check_open(&self) -> Result<(), Error> {
        match self.is_closing.load(Ordering::Acquire) {
            true => Err(Error::Closed),
            false => Ok(()),
        }
    }
}

/// Makes an empty log.
fn make_log(target: &dyn Folder, number: u64) -> Result<(), Error> {
    let name = Name::Log(number).text();
    let made = target.create(&name).and_then(|mut file| file.sync());
    made.map_err(of_target(target, &name))
}

/// Takes from a new file what others may do with it, unless they may do so with another one.
fn narrow(like: &Path, file: &Path) -> io::Result<()> {
    let mode = |path| Ok::<u32, io::Error>(fs::metadata(path)?.permissions().mode());
    let mode = mode(like)? & mode(file)?;
    fs::set_permissions(file, fs::Permissions::from_mode(mode))
}

/// A file of a backup, as errors name it.
fn text_of(target: &dyn Folder, name: &str) -> String {
    match target.path() {
        Some(path) => path.join(name).display().to_string(),
        None => name.into(),
    }
}

/// For a file of a backup, what an error of the device says.
fn of_target<'a>(target: &'a dyn Folder, name: &'a str) -> impl FnOnce(io::Error) -> Error + 'a {
    move |error| Error::of_file(&text_of(target, name))(error)
}

/// An error of a file of a backup, with the folder that it is in.
fn in_target(target: &dyn Folder) -> impl FnOnce(Error) -> Error + '_ {
    |error| match error {
        Error::File { file, error } => Error::File {
            file: text_of(target, &file),
            error,
        },
        Error::Damaged {
            file,
            offset,
            fault,
        } => Error::Damaged {
            file: text_of(target, &file),
            offset,
            fault,
        },
        other => other,
    }
}
