//! Bases: checkpoints as files.

use crate::error::Error;
use crate::folder::Folder;
use crate::gap;
use crate::name::Name;
use crate::partial::Partial;
use crate::windows::Windows;
use std::ops::ControlFlow;
use ucstore::{log_writes_at, Batch, Ended, LogPlace, Operator, Store, View};

/// The contents of a base.
#[derive(Clone, Copy, Debug, PartialEq, Eq)]
struct Extent {
    /// Its length in bytes.
    length: u64,
    /// The number of writes: its rows, and one that takes the last sequence.
    writes: u64,
    /// The last sequence.
    last: u64,
}

/// A base that is being written. If it isn't named, the device has nothing of it.
pub(crate) struct Base<'a> {
    folder: &'a dyn Folder,
    number: u64,
    file: Partial<'a>,
    written: Extent,
}

impl<'a> Base<'a> {
    /// Writes the rows of a view, for which the log of a number goes on, under a temporary name. A check before each piece may end it.
    pub(crate) fn write(
        folder: &'a dyn Folder,
        number: u64,
        view: &View,
        check: &impl Fn() -> Result<(), Error>,
    ) -> Result<Base<'a>, Error> {
        let mut file = Partial::create(folder, Name::Partial(number).text())?;
        let written = write_rows(&mut file, view, check)?;
        Ok(Base {
            folder,
            number,
            file,
            written,
        })
    }

    /// Waits until all of it is on the device, and reads it again.
    pub(crate) fn sync(&mut self, check: &impl Fn() -> Result<(), Error>) -> Result<(), Error> {
        self.file.sync()?;
        verify(self.folder, self.number, self.written, check)
    }

    /// Its size in bytes.
    pub(crate) fn length(&self) -> u64 {
        self.written.length
    }

    /// Gives it its name, which has the view's last sequence.
    pub(crate) fn rename(self) -> Result<(), Error> {
        let name = Name::Base(self.number, Some(self.written.last));
        self.file.rename(&name.text())
    }
}

/// Writes the rows of a view, and its last sequence.
fn write_rows(
    file: &mut Partial,
    view: &View,
    check: &impl Fn() -> Result<(), Error>,
) -> Result<Extent, Error> {
    let mut checkpoint = view.checkpoint()?;
    let (mut length, mut rows, last) = (0, 0, view.last());
    while let Some(piece) = checkpoint.next_piece()? {
        check()?;
        file.append(piece)?;
        rows = gap::last_of(piece, length).expect("a piece is a batch");
        length += piece.len() as u64;
    }
    let is_lower = rows < last;
    if is_lower {
        let end = end_of(length, rows, last)?;
        file.append(&end)?;
        length += end.len() as u64;
    }
    let writes = rows + u64::from(is_lower);
    Ok(Extent {
        length,
        writes,
        last,
    })
}

/// The batch after the rows of a base of a length: an operation that touches nothing, and takes the last sequence.
fn end_of(length: u64, rows: u64, last: u64) -> Result<Vec<u8>, Error> {
    let mut batch = Batch::new();
    let mut bytes = batch.delete_range("", "")?.bytes();
    bytes[..8].copy_from_slice(&last.to_le_bytes());
    // Its spelling depends on no operator.
    let store = Store::create(Operator::Append, &ucstore::Options::default())?;
    Ok(store.prepare_bytes(length, &gap::tell(&bytes, rows))?)
}

/// Reads a base again, before what it stands for goes: its records have their checksums, and are as many as were written.
fn verify(
    folder: &dyn Folder,
    number: u64,
    written: Extent,
    check: &impl Fn() -> Result<(), Error>,
) -> Result<(), Error> {
    let name = Name::Partial(number);
    let mut windows = Windows::of(folder, name)?;
    let (mut place, mut writes) = (LogPlace::default(), 0);
    let ended = loop {
        check()?;
        let begin = windows.begin();
        let offset = place.offset - begin;
        let mut found = log_writes_at(windows.bytes(), LogPlace { offset, ..place });
        while let Some(write) = found.next_write()? {
            place.last = write.sequence;
            writes += 1;
        }
        place.offset = begin + found.offset();
        let ended = found.ended().expect("no write is left");
        match windows.go_on(place.offset, ended)? {
            ControlFlow::Continue(offset) => place.offset = offset,
            ControlFlow::Break(ended) => break ended,
        }
    };
    let read = Extent {
        length: place.offset,
        writes,
        last: place.last,
    };
    if ended == Ended::Clean && read == written && windows.length() == written.length {
        return Ok(());
    }
    Err(Error::Damaged {
        file: name.text(),
        offset: place.offset,
        fault: "what is read isn't what was written".into(),
    })
}
