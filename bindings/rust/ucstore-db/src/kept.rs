//! The log that goes on after an opening. What is kept of it is written to a new file: what another process wrote may not be on the
//! device, though it is read, and nothing is appended after that.

use crate::error::Error;
use crate::folder::Folder;
use crate::name::Name;
use crate::partial::Partial;
use crate::record::BLOCK_SIZE;
use crate::windows::Windows;

/// Bytes that were cut off a log, in a file of their own.
#[derive(Clone, Debug, PartialEq, Eq)]
pub(crate) struct SetAside {
    pub(crate) file: String,
    pub(crate) bytes: u64,
}

/// Writes the first bytes of a log to a new file.
pub(crate) fn copy_of(folder: &dyn Folder, number: u64, length: u64) -> Result<Partial<'_>, Error> {
    let mut windows = Windows::of(folder, Name::Log(number))?;
    let mut copy = Partial::create(folder, Name::NewLog(number).text())?;
    append_part(&mut copy, &mut windows, 0, length)?;
    Ok(copy)
}

/// Sets the bytes of a log aside from an offset on, unless they are zeros. They are on the device then. What was set aside before stays;
/// the same bytes aren't set aside twice.
pub(crate) fn set_aside(
    folder: &dyn Folder,
    number: u64,
    offset: u64,
) -> Result<Option<SetAside>, Error> {
    let mut windows = Windows::of(folder, Name::Log(number))?;
    if windows.is_zero_from(offset)? {
        return Ok(None);
    }
    let texts = folder.names().map_err(Error::of_file(""))?;
    let counts = texts.iter().filter_map(|text| match Name::of(text) {
        Some(Name::Lost(it, count)) if it == number => Some(count),
        _ => None,
    });
    let newest = counts.max().unwrap_or(0);
    let bytes = windows.length() - offset;
    if newest > 0 && is_end_of(folder, Name::Lost(number, newest), &mut windows, offset)? {
        // A crash came before the log was written anew.
        let file = Name::Lost(number, newest).text();
        return Ok(Some(SetAside { file, bytes }));
    }
    let file = Name::Lost(number, newest + 1).text();
    let mut copy = Partial::create(folder, Name::NewLost(number).text())?;
    append_part(&mut copy, &mut windows, offset, offset + bytes)?;
    copy.sync()?;
    copy.rename(&file)?;
    folder.sync().map_err(Error::of_file(""))?;
    Ok(Some(SetAside { file, bytes }))
}

/// Appends what a file has from an offset up to another one.
fn append_part(copy: &mut Partial, windows: &mut Windows, from: u64, to: u64) -> Result<(), Error> {
    let mut place = from;
    while place < to {
        let most = (to - place).min(BLOCK_SIZE) as usize;
        let piece = windows.at(place, most)?;
        copy.append(piece)?;
        place += piece.len() as u64;
    }
    Ok(())
}

/// Whether a file has what another one ends with, from an offset on.
fn is_end_of(
    folder: &dyn Folder,
    name: Name,
    windows: &mut Windows,
    offset: u64,
) -> Result<bool, Error> {
    let mut other = Windows::of(folder, name)?;
    if other.length() != windows.length() - offset {
        return Ok(false);
    }
    let mut place = 0;
    while place < other.length() {
        let one = other.at(place, BLOCK_SIZE as usize)?;
        if one != windows.at(offset + place, one.len())? {
            return Ok(false);
        }
        place += one.len() as u64;
    }
    Ok(true)
}
