//! [`Windows`]: a file that is read piece by piece, so that an opening takes no memory for all of it.

use crate::error::Error;
use crate::folder::Folder;
use crate::name::Name;
use crate::record::{block_of, header_place, BLOCK_SIZE};
use std::io;
use std::mem;
use std::ops::ControlFlow;
use ucstore::{Ended, LogFault};

/// The length of a window in bytes at first. One that a batch doesn't fit in grows.
pub(crate) const WINDOW_SIZE: usize = 1 << 20;

/// A file that is read piece by piece. A window begins with a block.
pub(crate) struct Windows<'a> {
    folder: &'a dyn Folder,
    name: String,
    /// The file's length in bytes.
    length: u64,
    /// Where the window begins.
    begin: u64,
    bytes: Vec<u8>,
}

impl<'a> Windows<'a> {
    /// The windows of a file.
    pub(crate) fn of(folder: &'a dyn Folder, name: Name) -> Result<Windows<'a>, Error> {
        Windows::from(folder, name, 0)
    }

    /// The windows of a file: the first one begins with the block of an offset, or of the file's end if that comes before it.
    pub(crate) fn from(
        folder: &'a dyn Folder,
        name: Name,
        offset: u64,
    ) -> Result<Windows<'a>, Error> {
        let name = name.text();
        let length = folder.length(&name).map_err(Error::of_file(&name))?;
        let mut windows = Windows {
            folder,
            name,
            length,
            begin: block_of(offset.min(length)),
            bytes: vec![],
        };
        windows.read(WINDOW_SIZE)?;
        Ok(windows)
    }

    /// The file's length in bytes.
    pub(crate) fn length(&self) -> u64 {
        self.length
    }

    /// Where the window begins.
    pub(crate) fn begin(&self) -> u64 {
        self.begin
    }

    /// The window's bytes.
    pub(crate) fn bytes(&self) -> &[u8] {
        &self.bytes
    }

    /// The bytes of the window from an offset on, which is in it.
    pub(crate) fn rest(&self, offset: u64) -> &[u8] {
        &self.bytes[(offset - self.begin) as usize..]
    }

    /// The bytes of the file from an offset on: as many as asked for, or fewer at its end. At most a block's are asked for.
    pub(crate) fn at(&mut self, offset: u64, length: usize) -> Result<&[u8], Error> {
        let offset = offset.min(self.length);
        let most = (self.length - offset).min(length as u64);
        if offset < self.begin || offset + most > self.end() {
            self.seek(offset)?;
        }
        Ok(&self.rest(offset)[..most as usize])
    }

    /// Goes on to the window that begins with the block of an offset.
    pub(crate) fn seek(&mut self, offset: u64) -> Result<(), Error> {
        let begin = block_of(offset);
        if begin != self.begin {
            self.begin = begin;
            self.bytes.clear();
            self.bytes.shrink_to(WINDOW_SIZE);
        }
        self.read(WINDOW_SIZE)
    }

    /// Makes the window twice as long.
    pub(crate) fn grow(&mut self) -> Result<(), Error> {
        self.read(2 * self.bytes.len().max(WINDOW_SIZE))
    }

    /// Takes the file's bytes from the block of an offset to its end, and returns where they begin. What is asked for later is read again.
    pub(crate) fn take_rest(&mut self, offset: u64) -> Result<(u64, Vec<u8>), Error> {
        self.seek(offset)?;
        let lacks = (self.length - self.end()) as usize;
        let reserved = self.bytes.try_reserve_exact(lacks);
        reserved.map_err(ucstore::Error::from)?;
        self.read(usize::MAX)?;
        Ok((self.begin, mem::take(&mut self.bytes)))
    }

    /// Goes on with a walk that ended in the window after the batches before an offset. Returns where the next batch may begin, which
    /// is in the window then, or how the walk ends with the file.
    ///
    /// The place may be after the offset: the last bytes of a block hold no header, and the next window may begin with the next block.
    pub(crate) fn go_on(
        &mut self,
        offset: u64,
        ended: Ended,
    ) -> Result<ControlFlow<Ended, u64>, Error> {
        let is_over = self.end() == self.length;
        if is_over || !matches!(ended, Ended::Clean | Ended::Torn { .. }) {
            return Ok(ControlFlow::Break(from_begin(self.begin, ended)));
        }
        let place = header_place(offset);
        if block_of(place) > self.begin {
            self.seek(place)?;
            return Ok(ControlFlow::Continue(place));
        }
        if ended == Ended::Clean {
            let is_clean = self.is_zero_from(place)?;
            let fault = LogFault::BadChecksum;
            return Ok(ControlFlow::Break(match is_clean {
                true => Ended::Clean,
                // Zeros before other bytes.
                false => Ended::LogFault {
                    offset: place,
                    fault,
                },
            }));
        }
        self.grow()?;
        Ok(ControlFlow::Continue(offset))
    }

    /// Whether the file has nothing but zeros from an offset on.
    pub(crate) fn is_zero_from(&mut self, offset: u64) -> Result<bool, Error> {
        let mut place = offset;
        while place < self.length {
            let piece = self.at(place, BLOCK_SIZE as usize)?;
            if piece.iter().any(|byte| *byte != 0) {
                return Ok(false);
            }
            place += piece.len() as u64;
        }
        Ok(true)
    }

    fn end(&self) -> u64 {
        self.begin + self.bytes.len() as u64
    }

    /// Reads on until the window has as many bytes, or all of the file's.
    fn read(&mut self, most: usize) -> Result<(), Error> {
        let most = (self.length - self.begin).min(most as u64) as usize;
        while self.bytes.len() < most {
            let lacks = (most - self.bytes.len()).min(WINDOW_SIZE);
            let piece = self
                .folder
                .read_at(&self.name, self.end(), lacks)
                .map_err(Error::of_file(&self.name))?;
            if piece.is_empty() {
                let error = io::Error::from(io::ErrorKind::UnexpectedEof);
                return Err(Error::of_file(&self.name)(error));
            }
            self.bytes.extend_from_slice(&piece);
        }
        Ok(())
    }
}

/// The end of a log, by the end of a part that begins at an offset.
fn from_begin(begin: u64, ended: Ended) -> Ended {
    match ended {
        Ended::Torn { offset } => Ended::Torn {
            offset: begin + offset,
        },
        Ended::LogFault { offset, fault } => Ended::LogFault {
            offset: begin + offset,
            fault,
        },
        other => other,
    }
}
