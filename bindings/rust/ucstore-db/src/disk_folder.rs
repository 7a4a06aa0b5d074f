//! [`DiskFolder`]: a folder of the file system.

use crate::error::Error;
use crate::folder::{File, Folder};
use crate::name::Name;
use std::fs::{self, OpenOptions, TryLockError};
use std::io::{self, Read, Seek, SeekFrom, Write};
use std::path::{Path, PathBuf};
use std::process;

/// The file that is locked.
const LOCK: &str = "LOCK";

/// The most times that a directory is listed until two lists agree.
const MOST_LISTS: usize = 1000;

/// A folder of the file system, which is locked until this is dropped.
///
/// Its path is made absolute, so that it stays the same if the process goes to another directory.
#[derive(Debug)]
pub struct DiskFolder {
    path: PathBuf,
    /// The directory itself, so that syncing its names needs no descriptor.
    directory: fs::File,
    /// There is none in a folder that was opened to be read, if it has no such file or is read beside its owner.
    lock: Option<fs::File>,
    /// The process that has locked it.
    process: u32,
    is_read_only: bool,
}

impl DiskFolder {
    /// Locks a folder, which is made if it isn't there. Its own name is on the device then.
    ///
    /// # Errors
    ///
    /// [`Error::Locked`], [`Error::File`].
    pub fn open(path: impl AsRef<Path>) -> Result<DiskFolder, Error> {
        let path = path.as_ref();
        let made = make_directory(path).and_then(|()| fs::canonicalize(path));
        DiskFolder::lock(made.map_err(Error::of_file(&path.display().to_string()))?)
    }

    /// Locks a folder in which there is a database. It makes none.
    ///
    /// # Errors
    ///
    /// [`Error::Missing`] if there is none, and those of [`open`](DiskFolder::open).
    pub fn open_existing(path: impl AsRef<Path>) -> Result<DiskFolder, Error> {
        DiskFolder::lock(existing(path.as_ref())?)
    }

    /// Locks a folder in which there is a database, to read it. Others may read it meanwhile, and no owner may open it. Nothing is made,
    /// and changes are refused. A folder without the file `LOCK` isn't locked.
    ///
    /// # Errors
    ///
    /// [`Error::Missing`] if there is no database, [`Error::Locked`], [`Error::File`].
    pub fn open_to_read(path: impl AsRef<Path>) -> Result<DiskFolder, Error> {
        let path = existing(path.as_ref())?;
        let directory =
            fs::File::open(&path).map_err(Error::of_file(&path.display().to_string()))?;
        let file = path.join(LOCK).display().to_string();
        let lock = match fs::File::open(path.join(LOCK)) {
            Ok(lock) => Some(lock),
            Err(error) if error.kind() == io::ErrorKind::NotFound => None,
            Err(error) => return Err(Error::of_file(&file)(error)),
        };
        let outcome = lock.as_ref().map_or(Ok(()), fs::File::try_lock_shared);
        locked(outcome, file)?;
        Ok(DiskFolder {
            path,
            directory,
            lock,
            process: process::id(),
            is_read_only: true,
        })
    }

    /// Opens a folder in which there is a database, to read it also while its owner has it open. Nothing is locked or made, and changes
    /// are rejected. Names are listed until two lists agree, since a file that is renamed meanwhile may be missing in one.
    ///
    /// # Errors
    ///
    /// [`Error::Missing`] if there is no database, [`Error::File`].
    pub fn open_beside(path: impl AsRef<Path>) -> Result<DiskFolder, Error> {
        let path = existing(path.as_ref())?;
        let directory =
            fs::File::open(&path).map_err(Error::of_file(&path.display().to_string()))?;
        Ok(DiskFolder {
            path,
            directory,
            lock: None,
            process: process::id(),
            is_read_only: true,
        })
    }

    /// Locks a folder of an absolute path.
    fn lock(path: PathBuf) -> Result<DiskFolder, Error> {
        let name = path.display().to_string();
        let directory = fs::File::open(&path).map_err(Error::of_file(&name))?;
        let file = path.join(LOCK).display().to_string();
        if !path.join(LOCK).exists() {
            // Where there is one, this was done before.
            sync_name(&path).map_err(Error::of_file(&name))?;
        }
        let lock = OpenOptions::new()
            .write(true)
            .create(true)
            .truncate(false)
            .open(path.join(LOCK))
            .map_err(Error::of_file(&file))?;
        locked(lock.try_lock(), file)?;
        Ok(DiskFolder {
            path,
            directory,
            lock: Some(lock),
            process: process::id(),
            is_read_only: false,
        })
    }

    /// The path of a file that is about to be changed.
    fn changed(&self, name: &str) -> io::Result<PathBuf> {
        match self.is_read_only {
            true => Err(io::ErrorKind::ReadOnlyFilesystem.into()),
            false => Ok(self.path.join(name)),
        }
    }
}

/// The absolute path of a directory in which there is a database.
fn existing(path: &Path) -> Result<PathBuf, Error> {
    let file = path.display().to_string();
    let path = match fs::canonicalize(path) {
        Ok(path) => path,
        Err(error) if error.kind() == io::ErrorKind::NotFound => {
            return Err(Error::Missing { file });
        }
        Err(error) => return Err(Error::of_file(&file)(error)),
    };
    match settled_names_of(&path) {
        Ok(names) if names.iter().any(|name| is_database(name)) => Ok(path),
        Ok(_) => Err(Error::Missing { file }),
        Err(error) => Err(Error::of_file(&file)(error)),
    }
}

/// The outcome of locking a file.
fn locked(outcome: Result<(), TryLockError>, file: String) -> Result<(), Error> {
    match outcome {
        Ok(()) => Ok(()),
        Err(TryLockError::WouldBlock) => Err(Error::Locked { file }),
        Err(TryLockError::Error(error)) => Err(Error::of_file(&file)(error)),
    }
}

impl Drop for DiskFolder {
    /// Unlocks it, also if a child of the process still has the file. A child doesn't unlock what is its parent's.
    fn drop(&mut self) {
        if let Some(lock) = self.lock.as_ref().filter(|_| self.process == process::id()) {
            // A failure here ends with the file.
            let _ = lock.unlock();
        }
    }
}

/// Makes a directory and those above it, and waits until the names of those are on the device.
pub(crate) fn make_directory(path: &Path) -> io::Result<()> {
    if path.as_os_str().is_empty() || path.is_dir() {
        return Ok(());
    }
    let above = path.parent().unwrap_or(Path::new(""));
    make_directory(above)?;
    match fs::create_dir(path) {
        Err(error) if error.kind() == io::ErrorKind::AlreadyExists => {}
        outcome => outcome?,
    }
    // A name without a directory is one of the directory in which the process runs.
    fs::File::open(Path::new(".").join(above))?.sync_all()
}

/// Waits until the name of a directory is on the device: who made it may have ended before that. So may be those of the ones above it,
/// where that can be asked for.
fn sync_name(path: &Path) -> io::Result<()> {
    let mut above = path.ancestors().skip(1);
    if let Some(parent) = above.next() {
        fs::File::open(parent)?.sync_all()?;
    }
    for directory in above {
        // A directory of another user wasn't made by this one.
        let _ = fs::File::open(directory).and_then(|directory| directory.sync_all());
    }
    Ok(())
}

/// The names of the files of a directory.
fn names_of(path: &Path) -> io::Result<Vec<String>> {
    fs::read_dir(path)?
        .map(|entry| Ok(entry?.file_name().to_string_lossy().into_owned()))
        .collect()
}

/// The names of the files of a directory in which another process may rename and remove some.
fn settled_names_of(path: &Path) -> io::Result<Vec<String>> {
    let mut seen = None;
    for _ in 0..MOST_LISTS {
        let mut names = names_of(path)?;
        names.sort_unstable();
        if seen.as_ref() == Some(&names) {
            return Ok(names);
        }
        seen = Some(names);
    }
    Err(io::ErrorKind::ResourceBusy.into())
}

/// Whether a file is a log or a checkpoint.
pub(crate) fn is_database(name: &str) -> bool {
    matches!(
        Name::of(name),
        Some(Name::Log(_) | Name::Base(..) | Name::List(..))
    )
}

impl Folder for DiskFolder {
    fn names(&self) -> io::Result<Vec<String>> {
        match self.is_read_only {
            true => settled_names_of(&self.path),
            false => names_of(&self.path),
        }
    }

    fn length(&self, name: &str) -> io::Result<u64> {
        Ok(fs::metadata(self.path.join(name))?.len())
    }

    fn read(&self, name: &str) -> io::Result<Vec<u8>> {
        fs::read(self.path.join(name))
    }

    fn read_at(&self, name: &str, offset: u64, length: usize) -> io::Result<Vec<u8>> {
        let mut file = fs::File::open(self.path.join(name))?;
        file.seek(SeekFrom::Start(offset))?;
        let mut bytes = Vec::with_capacity(length);
        file.take(length as u64).read_to_end(&mut bytes)?;
        Ok(bytes)
    }

    fn create(&self, name: &str) -> io::Result<Box<dyn File>> {
        Ok(Box::new(fs::File::create(self.changed(name)?)?))
    }

    fn open(&self, name: &str) -> io::Result<Box<dyn File>> {
        let file = OpenOptions::new().append(true).open(self.changed(name)?)?;
        Ok(Box::new(file))
    }

    fn rename(&self, from: &str, to: &str) -> io::Result<()> {
        fs::rename(self.changed(from)?, self.changed(to)?)
    }

    fn remove(&self, name: &str) -> io::Result<()> {
        fs::remove_file(self.changed(name)?)
    }

    fn sync(&self) -> io::Result<()> {
        self.directory.sync_all()
    }

    fn path(&self) -> Option<&Path> {
        Some(&self.path)
    }
}

impl File for fs::File {
    fn append(&mut self, bytes: &[u8]) -> io::Result<()> {
        self.write_all(bytes)
    }

    fn cut(&mut self, length: u64) -> io::Result<()> {
        self.set_len(length)?;
        // One that was made anew goes on where it was: here.
        self.seek(SeekFrom::Start(length)).map(drop)
    }

    fn sync(&mut self) -> io::Result<()> {
        self.sync_data()
    }
}
