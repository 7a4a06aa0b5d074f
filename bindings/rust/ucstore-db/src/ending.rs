//! [`Ending`]: the end of a log, as a crash left it, or damaged.
//!
//! A record tells up to where its log was on the device when it was written. So a batch that isn't whole, but for which a later record
//! says that it was on the device, is damaged. Any other one was still under way when the machine stopped: the log ends before it. Where
//! nothing was written yet, there may be zeros or bytes of older files, whole batches among them.
//!
//! [`first_told`] finds such a record, and no crash leaves one. It passes over two kinds of damage, which are found here:
//!
//! - A length is wrong, so that nothing is found after it in its block. It is corrected by the checksum, and the log searched again.
//! - The log is of a version without marks. There any later batch counts, though a crash may leave one.

use crate::checksum::length_by;
use crate::error::Error;
use crate::header::{numbers_of, HEADER_SIZE as BATCH_HEADER};
use crate::mark::MOST_SIZE as MOST_MARK;
use crate::name::Name;
use crate::record::{block_of, head_of, header_place, Header, BLOCK_SIZE, FULL, HEADER_SIZE};
use crate::replay::{closing_sequence, Replay, Stop};
use crate::windows::Windows;
use ucstore::{first_told, log_writes_at, mark_of, BatchFault, Ended, LogPlace};

/// As many bytes as hold a batch's header and its mark, also across the end of a block.
const HEAD_SIZE: usize = 128;

/// The fault where there is no record.
const MISSING: &str = "writes before this are missing";
const BEHIND: &str = "a batch follows one that isn't whole";
const WITHIN: &str = "it ends within a batch";

/// The end of a log, after its last whole batch.
#[derive(Clone, Debug, PartialEq, Eq)]
pub(crate) enum Ending {
    /// Nothing.
    Whole,
    /// A record that says that all before it is on the device.
    Closed,
    /// Batches that are given up.
    GivenUp,
    /// A torn end, as a crash may leave it, and why it is no batch: the place and the fault.
    Left(u64, String),
    /// Damage, which no crash leaves: the place and the fault.
    Damaged(u64, String),
}

/// The end of a log or a base that was read up to here, after its last sequence.
pub(crate) fn ending_of(
    name: Name,
    windows: &mut Windows,
    replay: &Replay,
    last: u64,
) -> Result<Ending, Error> {
    let end = replay.end;
    let (place, fault) = match replay.stop {
        Stop::Closed => return Ok(Ending::Closed),
        Stop::Enough if end == windows.length() => return Ok(Ending::Whole),
        Stop::Enough if closing_sequence(windows, end)? == Some(last + 1) => {
            return Ok(Ending::Closed);
        }
        Stop::Enough => return Ok(Ending::GivenUp),
        Stop::Gap => (end, Some(MISSING.into())),
        Stop::Ended(Ended::Clean) if end == windows.length() => return Ok(Ending::Whole),
        Stop::Ended(ended @ Ended::BatchFault { fault, .. }) => {
            if !may_be_stale(windows, end, fault)? {
                return Ok(Ending::Damaged(end, ended.to_string()));
            }
            (end, Some(ended.to_string()))
        }
        Stop::Ended(ended @ Ended::LogFault { offset, .. }) => (offset, Some(ended.to_string())),
        Stop::Ended(Ended::Clean | Ended::Torn { .. }) => (end, None),
    };
    // A base is damaged wherever it ends within a batch, so nothing is looked for there.
    let is_base = matches!(name, Name::Base(..));
    Ok(match !is_base && has_later(windows, replay, last)? {
        true => Ending::Damaged(place, fault.unwrap_or_else(|| BEHIND.into())),
        false => Ending::Left(place, fault.unwrap_or_else(|| WITHIN.into())),
    })
}

/// Whether a payload at an offset that is no batch may be of older bytes, which a device shows where it has written none: an older
/// batch, or records of which some are older. In one record a checksum is right for all of it: then it was written so.
fn may_be_stale(windows: &mut Windows, offset: u64, fault: BatchFault) -> Result<bool, Error> {
    let header = Header::of(windows.at(header_place(offset), HEADER_SIZE)?);
    let is_full = header.is_some_and(|header| header.code == FULL);
    Ok(fault == BatchFault::SequenceBack || !is_full)
}

/// Whether a later batch tells that the one after the last whole one was on the device. All of the log from there on is read.
fn has_later(windows: &mut Windows, replay: &Replay, last: u64) -> Result<bool, Error> {
    let is_older = !is_marked(windows, replay.last_begin)?;
    let (begin, mut log) = windows.take_rest(replay.end)?;
    let end = LogPlace {
        offset: replay.end - begin,
        last,
    };
    if first_told(&log, end)?.is_some() || is_older && has_unmarked(&log, end.offset, end)? {
        return Ok(true);
    }
    let Some(resume) = mend_length(&mut log, end)? else {
        return Ok(false);
    };
    Ok(first_told(&log, end)?.is_some() || is_older && has_unmarked(&log, resume, end)?)
}

/// Whether the batch at a place has a mark. Then those that were written after it have.
fn is_marked(windows: &mut Windows, place: u64) -> Result<bool, Error> {
    let head = head_of(
        windows.at(place, HEAD_SIZE)?,
        place,
        BATCH_HEADER + MOST_MARK,
    );
    Ok(mark_of(&head).is_some())
}

/// Whether a whole batch without a mark is at a place or after it. It is looked for where a record may begin alone: after records whose
/// lengths are right, and at the starts of blocks. So no bytes of a value count.
fn has_unmarked(log: &[u8], from: u64, end: LogPlace) -> Result<bool, Error> {
    let mut place = header_place(from);
    while let Some(rest) = log.get(place as usize..) {
        let Some(header) = Header::of(rest) else {
            break;
        };
        if may_be_unmarked(rest, place, end, log.len() as u64) && is_batch_at(log, place, 0)? {
            return Ok(true);
        }
        place = match header.end_at(place) {
            Some(end) => header_place(end),
            None => block_of(place) + BLOCK_SIZE,
        };
    }
    Ok(false)
}

/// Whether the first bytes at a place are those of a batch without a mark, with a sequence that may follow: each write takes bytes. That
/// costs less than a checksum.
fn may_be_unmarked(rest: &[u8], place: u64, end: LogPlace, length: u64) -> bool {
    let head = head_of(rest, place, BATCH_HEADER + MOST_MARK);
    let left = length - end.offset;
    let is_next = |sequence| sequence > end.last && sequence - end.last <= left;
    numbers_of(&head).is_some_and(|(sequence, _)| is_next(sequence)) && mark_of(&head).is_none()
}

/// Whether a whole batch begins at a place of a log, after a last sequence.
fn is_batch_at(log: &[u8], offset: u64, last: u64) -> Result<bool, Error> {
    let mut writes = log_writes_at(log, LogPlace { offset, last });
    writes.next_write()?;
    Ok(writes.offset() > offset)
}

/// Corrects the length of a record of the batch at a place, if nothing else is wrong of that batch. Returns where the record ends.
fn mend_length(log: &mut [u8], end: LogPlace) -> Result<Option<u64>, Error> {
    let mut place = header_place(end.offset);
    while let Some(header) = log.get(place as usize..).and_then(Header::of) {
        let begin = place as usize + HEADER_SIZE;
        let most = log.len().min((block_of(place) + BLOCK_SIZE) as usize);
        let Some(length) = length_by(header.checksum, header.code, &log[begin..most]) else {
            return Ok(None);
        };
        let resume = header_place((begin + length) as u64);
        if length == usize::from(header.length) {
            place = resume;
            continue;
        }
        log[begin - 3..begin - 1].copy_from_slice(&(length as u16).to_le_bytes());
        return Ok(is_batch_at(log, end.offset, end.last)?.then_some(resume));
    }
    Ok(None)
}

/// Whether a whole batch begins at a place of a file.
pub(crate) fn is_batch(windows: &mut Windows, place: u64) -> Result<bool, Error> {
    windows.seek(place)?;
    loop {
        let begin = windows.begin();
        let at = LogPlace {
            offset: place - begin,
            last: 0,
        };
        let mut writes = log_writes_at(windows.bytes(), at);
        writes.next_write()?;
        if begin + writes.offset() > place {
            return Ok(true);
        }
        let ended = writes.ended().expect("there is no batch");
        if windows.go_on(place, ended)?.is_break() {
            return Ok(false);
        }
    }
}
