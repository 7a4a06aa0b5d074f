//! [`Folder`] and [`File`]: the device below a database.

use std::io;
use std::path::Path;

/// A folder of files that one database has open. [`DiskFolder`](crate::DiskFolder) is one of the file system.
///
/// Synced bytes and names survive a crash, and nothing else does for certain: a file's bytes by [`File::sync`], and the names
/// of files by [`Folder::sync`].
pub trait Folder: Send + Sync {
    /// The names of all files.
    fn names(&self) -> io::Result<Vec<String>>;
    /// The size of a file in bytes.
    fn length(&self, name: &str) -> io::Result<u64>;
    /// The bytes of a file.
    fn read(&self, name: &str) -> io::Result<Vec<u8>>;
    /// The bytes of a file from an offset on: `length` of them, or as many as there are. Logs, bases and run files are read so, a window at
    /// a time. Unless it is defined, it takes them from all of the file's.
    fn read_at(&self, name: &str, offset: u64, length: usize) -> io::Result<Vec<u8>> {
        let mut bytes = self.read(name)?;
        let begin = bytes
            .len()
            .min(usize::try_from(offset).unwrap_or(usize::MAX));
        bytes.drain(..begin);
        bytes.truncate(length);
        Ok(bytes)
    }
    /// A file without bytes, whether there was one of the name or not.
    fn create(&self, name: &str) -> io::Result<Box<dyn File>>;
    /// A file that is there. One that is open already gets another handle, which may be synced while bytes are appended by the first.
    /// Each handle is told of a sync that failed, also of another one's.
    fn open(&self, name: &str) -> io::Result<Box<dyn File>>;
    /// Gives a file another name. One that had the name is no more.
    fn rename(&self, from: &str, to: &str) -> io::Result<()>;
    /// Removes a file.
    fn remove(&self, name: &str) -> io::Result<()>;
    /// Waits until the names are on the device.
    fn sync(&self) -> io::Result<()>;
    /// The absolute path of the folder, if it is a directory of the file system. A [backup](crate::Db::backup) links its files then.
    fn path(&self) -> Option<&Path> {
        None
    }
}

/// A file that is written at its end.
pub trait File: Send {
    /// Writes bytes after the last one.
    fn append(&mut self, bytes: &[u8]) -> io::Result<()>;
    /// Cuts off what is after the first bytes.
    fn cut(&mut self, length: u64) -> io::Result<()>;
    /// Waits until the bytes are on the device.
    fn sync(&mut self) -> io::Result<()>;
}
