//! [`Follower`]: how far a database has the logs of its owner, beside which it was opened to be read.

use crate::error::Error;
use crate::folder::Folder;
use crate::name::Name;
use crate::windows::Windows;
use std::ops::Range;
use std::sync::{Arc, Mutex};

/// The most bytes before a place by which a log is known again.
const MOST_KNOWN: u64 = 64;

/// The folder of an owner, and the place in its logs up to which a database has them.
pub(crate) struct Follower {
    pub(crate) folder: Arc<dyn Folder>,
    pub(crate) place: Mutex<Place>,
}

/// A place in a log, after the last batch that was read.
pub(crate) struct Place {
    /// The number of the log.
    pub(crate) number: u64,
    /// The offset of the next batch.
    pub(crate) offset: u64,
    /// The offset of the last batch; 0 if it isn't known.
    pub(crate) last_begin: u64,
    /// The bytes before the next batch, if they are known. A copy of the log has them too.
    known: Vec<u8>,
}

/// A log that is looked for.
pub(crate) enum Found<'a> {
    /// It is there, or a copy of it.
    Log(Windows<'a>),
    /// It was removed.
    Removed,
    /// A log of its number is there that has other bytes.
    Other,
}

/// The log after another one.
pub(crate) enum Next<'a> {
    /// None that has bytes.
    None,
    /// The log of a number. Those between have no bytes.
    Log(u64, Windows<'a>),
    /// It was removed, or the one before it.
    Removed,
}

impl Follower {
    /// Follows an owner from a place on.
    pub(crate) fn of(folder: Arc<dyn Folder>, place: Place) -> Follower {
        let place = Mutex::new(place);
        Follower { folder, place }
    }

    /// The logs and bases that are there, in their order.
    pub(crate) fn names(&self) -> Result<Vec<Name>, Error> {
        let texts = self.folder.names().map_err(Error::of_file(""))?;
        let mut names = Vec::from_iter(texts.iter().filter_map(|text| Name::of(text)));
        names.sort();
        Ok(names)
    }

    /// The first log after one of a number that has bytes.
    pub(crate) fn next_log(&self, number: u64) -> Result<Next<'_>, Error> {
        let mut number = number;
        loop {
            match self.log(number + 1)? {
                Some(windows) if windows.length() > 0 => {
                    return Ok(Next::Log(number + 1, windows));
                }
                Some(_) => number += 1,
                None if self.is_last(number)? => return Ok(Next::None),
                None => return Ok(Next::Removed),
            }
        }
    }

    /// Whether a log is there, and no later one.
    fn is_last(&self, number: u64) -> Result<bool, Error> {
        let names = self.names()?;
        let logs = names.iter().filter(|name| matches!(name, Name::Log(_)));
        Ok(logs.max() == Some(&Name::Log(number)))
    }

    /// The length of a log in bytes.
    pub(crate) fn length(&self, number: u64) -> Result<u64, Error> {
        let name = Name::Log(number).text();
        self.folder.length(&name).map_err(Error::of_file(&name))
    }

    /// Whether logs have no bytes.
    pub(crate) fn are_empty(&self, mut numbers: Range<u64>) -> Result<bool, Error> {
        numbers.try_fold(true, |so_far, number| {
            Ok(so_far && self.length(number)? == 0)
        })
    }

    /// The log of a number, from its begin on; none if it isn't there.
    pub(crate) fn log(&self, number: u64) -> Result<Option<Windows<'_>>, Error> {
        match Windows::of(&*self.folder, Name::Log(number)) {
            Err(error) if error.is_not_found() => Ok(None),
            outcome => outcome.map(Some),
        }
    }

    /// The log of a place, with the place in its window.
    pub(crate) fn find(&self, place: &Place) -> Result<Found<'_>, Error> {
        let from = place.offset - place.known.len() as u64;
        let mut windows = match Windows::from(&*self.folder, place.name(), from) {
            Err(error) if error.is_not_found() => return Ok(Found::Removed),
            outcome => outcome?,
        };
        let is_same =
            windows.length() >= place.offset && windows.at(from, place.known.len())? == place.known;
        Ok(match is_same {
            true => Found::Log(windows),
            false => Found::Other,
        })
    }
}

impl Place {
    /// An offset of a log.
    pub(crate) fn of(number: u64, offset: u64) -> Place {
        Place {
            number,
            offset,
            last_begin: 0,
            known: vec![],
        }
    }

    /// The name of its log.
    pub(crate) fn name(&self) -> Name {
        Name::Log(self.number)
    }

    /// Goes on to the end of a batch that was written, or to where the next one may begin.
    pub(crate) fn go_on(&mut self, offset: u64) {
        self.offset = offset;
        self.known.clear();
    }

    /// Notes the bytes before it, by which the log is known again.
    pub(crate) fn know(&mut self, windows: &mut Windows) -> Result<(), Error> {
        let length = self.offset.min(MOST_KNOWN);
        let bytes = windows.at(self.offset - length, length as usize)?;
        self.known = bytes.to_vec();
        Ok(())
    }
}
