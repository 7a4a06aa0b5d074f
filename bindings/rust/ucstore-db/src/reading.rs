//! [`Reading`]: how far the files of a folder are read.

use crate::error::Error;
use crate::event::{Listener, Progress};
use crate::folder::Folder;
use crate::name::Name;

/// The number of bytes between two reports to the listener.
const STEP: u64 = 1 << 20;

/// The progress of reading the files of a folder, for a listener if there is one.
pub(crate) struct Reading<'a> {
    listener: Option<&'a Listener<Progress>>,
    /// The size of the files before this one in bytes.
    before: u64,
    /// The size of all files in bytes.
    whole: u64,
    /// From how many bytes on the listener is told again.
    next: u64,
}

impl<'a> Reading<'a> {
    /// The progress of reading files. Their lengths are asked for a listener alone.
    pub(crate) fn of(
        folder: &dyn Folder,
        names: impl Iterator<Item = Name>,
        listener: &'a Option<Listener<Progress>>,
    ) -> Result<Reading<'a>, Error> {
        let listener = listener.as_ref();
        let mut whole = 0;
        for name in names.filter(|_| listener.is_some()) {
            let name = name.text();
            whole += folder.length(&name).map_err(Error::of_file(&name))?;
        }
        Ok(Reading {
            listener,
            before: 0,
            whole,
            next: STEP,
        })
    }

    /// Tells that a file was read up to an offset, if that is far enough.
    pub(crate) fn tell(&mut self, name: Name, offset: u64) {
        let read = self.before + offset;
        if read >= self.next {
            self.tell_at(name, read);
        }
    }

    /// Reports that a file was read, of this length in bytes.
    pub(crate) fn end(&mut self, name: Name, length: u64) {
        self.before += length;
        self.tell_at(name, self.before);
    }

    /// Tells how many bytes of all files were read.
    fn tell_at(&mut self, name: Name, read: u64) {
        self.next = read + STEP;
        if let Some(listener) = self.listener {
            listener.tell(&Progress {
                file: name.text(),
                read,
                whole: self.whole,
            });
        }
    }
}
