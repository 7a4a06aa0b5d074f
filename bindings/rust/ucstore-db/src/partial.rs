//! [`Partial`]: a file that gets its name, or keeps it, once it is whole and on the device.

use crate::error::Error;
use crate::folder::{File, Folder};

/// A file that gets its name once it is whole and on the device. Before, it is removed where this is dropped.
pub(crate) struct Partial<'a> {
    folder: &'a dyn Folder,
    name: String,
    file: Box<dyn File>,
    is_named: bool,
}

impl<'a> Partial<'a> {
    /// An empty file of a name.
    pub(crate) fn create(folder: &'a dyn Folder, name: String) -> Result<Partial<'a>, Error> {
        let file = folder.create(&name).map_err(Error::of_file(&name))?;
        Ok(Partial {
            folder,
            name,
            file,
            is_named: false,
        })
    }

    /// Writes bytes after the last one.
    pub(crate) fn append(&mut self, bytes: &[u8]) -> Result<(), Error> {
        self.file.append(bytes).map_err(Error::of_file(&self.name))
    }

    /// Waits until its bytes are on the device.
    pub(crate) fn sync(&mut self) -> Result<(), Error> {
        self.file.sync().map_err(Error::of_file(&self.name))
    }

    /// Keeps it under the name that it has.
    pub(crate) fn keep(mut self) {
        self.is_named = true;
    }

    /// Gives it its name, once it was synced.
    pub(crate) fn rename(mut self, whole: &str) -> Result<(), Error> {
        // A failed operation may be done nevertheless. So it keeps its bytes from here on.
        self.is_named = true;
        let renamed = self.folder.rename(&self.name, whole);
        if renamed.is_err() {
            let _ = self.folder.remove(&self.name);
        }
        renamed.map_err(Error::of_file(whole))
    }
}

impl Drop for Partial<'_> {
    /// Frees what it takes on the device: also where its name can't be removed. What fails here was told before, by what failed first.
    fn drop(&mut self) {
        if !self.is_named {
            let _ = self.file.cut(0);
            let _ = self.folder.remove(&self.name);
        }
    }
}
