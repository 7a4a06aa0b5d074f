//! [`Replay`]: the batches of a file, written to a store again.

use crate::error::Error;
use crate::gap;
use crate::header::{numbers_of, HEADER_SIZE};
use crate::mark;
use crate::record::head_of;
use crate::recovery_target::RecoveryTarget;
use crate::windows::Windows;
use std::ops::ControlFlow;
use ucstore::{log_writes_at, mark_of, BatchFault, Ended, LogPlace, Replayed, Store};

/// The most bytes of the record that a close writes, which may stand in two blocks.
const MOST_CLOSING: u64 = 64;

/// Where a log begins.
#[derive(Clone, Copy, PartialEq, Eq)]
pub(crate) enum Begin {
    /// Right after the last write.
    Behind,
    /// Within the log: what comes up to the last write is in the base.
    InBase,
    /// Anywhere: the base doesn't tell its last sequence, and has fewer writes than it was made of.
    Anywhere,
}

/// The outcome of reading a file.
pub(crate) struct Replay {
    /// Where the last whole batch ends.
    pub(crate) end: u64,
    /// The number of batches up to there.
    pub(crate) batches: u64,
    /// Where the last batch begins that was written; 0 if none was.
    pub(crate) last_begin: u64,
    pub(crate) stop: Stop,
}

/// Why nothing more was read.
#[derive(Clone, Copy, Debug, PartialEq, Eq)]
pub(crate) enum Stop {
    /// No batch may follow.
    Ended(Ended),
    /// The sequence of the next batch isn't the one after it.
    Gap,
    /// Everything after it is given up.
    Enough,
    /// Nothing but a record follows that says that all before it is on the device.
    Closed,
}

/// A replay that is under way.
struct Walk<'a, 'b> {
    store: &'a Store,
    windows: &'a mut Windows<'b>,
    target: &'a mut RecoveryTarget,
    /// Where the next batch begins.
    offset: u64,
    /// The number of batches that were written.
    batches: u64,
    /// Where the last one of them begins; 0 if there is none.
    last_begin: u64,
    may_skip_first: bool,
}

impl Replay {
    /// Whether what is after the last batch is given up.
    pub(crate) fn is_enough(&self) -> bool {
        self.stop == Stop::Enough
    }

    /// Writes the batches of a log to a store, with the sequences that they had: those after the store's last one, but for gaps that
    /// batches tell, up to a moment at which that ends. Tells the offset before each batch.
    pub(crate) fn of(
        store: &Store,
        windows: &mut Windows,
        begin: Begin,
        target: &mut RecoveryTarget,
        mut tell: impl FnMut(u64),
    ) -> Result<Replay, Error> {
        let passed = match begin {
            Begin::InBase => pass_over(windows, store.last())?,
            Begin::Behind | Begin::Anywhere => Some((0, 0)),
        };
        let Some((offset, passed)) = passed else {
            return Ok(Replay {
                end: 0,
                batches: 0,
                last_begin: 0,
                stop: Stop::Gap,
            });
        };
        windows.seek(offset)?;
        let mut walk = Walk {
            store,
            windows,
            target,
            offset,
            batches: 0,
            last_begin: 0,
            may_skip_first: begin == Begin::Anywhere,
        };
        loop {
            if let Some(stop) = walk.write_window(&mut tell)? {
                return Ok(Replay {
                    end: walk.offset,
                    batches: passed + walk.batches,
                    last_begin: walk.last_begin,
                    stop,
                });
            }
        }
    }
}

impl Walk<'_, '_> {
    /// Writes the batches of a window. Tells why nothing more is read, unless another window follows.
    fn write_window(&mut self, tell: &mut impl FnMut(u64)) -> Result<Option<Stop>, Error> {
        let begin = self.windows.begin();
        let place = LogPlace {
            offset: self.offset - begin,
            last: self.store.last(),
        };
        let mut replay = log_writes_at(self.windows.bytes(), place).replay(self.store);
        let before = self.batches;
        let ended = loop {
            let (end, last) = (begin + replay.offset(), replay.last());
            self.offset = end;
            tell(end);
            if self.target.are_due(last + 1) && self.target.reach(self.store, end)? {
                return Ok(Some(Stop::Enough));
            }
            if let Some(sequence) = closing_sequence(self.windows, end)? {
                let is_next = sequence == last + 1;
                return Ok(Some(if is_next { Stop::Closed } else { Stop::Gap }));
            }
            let may_skip = self.may_skip_first && end == 0;
            let mut replayed = replay.write_next(may_skip)?;
            if replayed == Replayed::Gap && gap::is_told(self.windows.rest(end), end, last)? {
                replayed = replay.write_next(true)?;
            }
            match replayed {
                Replayed::Batch => (self.batches, self.last_begin) = (self.batches + 1, end),
                Replayed::Gap => return Ok(Some(Stop::Gap)),
                Replayed::Ended(ended) => break ended,
            }
        };
        let ended = numbered(ended, before);
        match self.windows.go_on(self.offset, ended)? {
            ControlFlow::Continue(offset) => {
                self.offset = offset;
                Ok(None)
            }
            ControlFlow::Break(ended) => Ok(Some(Stop::Ended(ended))),
        }
    }
}

/// The sequence of the record at an offset by which a close ended a log, if that is all that the file has there, and is in the window.
pub(crate) fn closing_sequence(windows: &Windows, offset: u64) -> Result<Option<u64>, Error> {
    let left = windows.length() - offset;
    let rest = windows.rest(offset);
    if left == 0 || left > MOST_CLOSING || rest.len() as u64 != left {
        return Ok(None);
    }
    let head = head_of(rest, offset, HEADER_SIZE + mark::MOST_SIZE);
    let is_mark = mark_of(&head) == Some(0);
    let Some((sequence, 0)) = numbers_of(&head).filter(|_| is_mark) else {
        return Ok(None);
    };
    let place = LogPlace {
        offset: offset - windows.begin(),
        last: 0,
    };
    let whole = (windows.bytes().len() as u64, Ended::Clean);
    let is_whole = log_writes_at(windows.bytes(), place).end()? == whole;
    Ok(is_whole.then_some(sequence))
}

/// Passes over what a log has up to a sequence, if it begins there or before it. Returns where that ends, and how many batches it is;
/// none if no batch ends there: then what the log has isn't what the base was made of.
fn pass_over(windows: &mut Windows, last: u64) -> Result<Option<(u64, u64)>, Error> {
    let (mut offset, mut before, mut is_first, mut batches) = (0, 0, true, 0);
    loop {
        let begin = windows.begin();
        let place = LogPlace {
            offset: offset - begin,
            last: before,
        };
        let mut writes = log_writes_at(windows.bytes(), place);
        while let Some(write) = writes.next_write()? {
            let sequence = write.sequence;
            if is_first && sequence > last {
                return Ok(Some((0, 0)));
            }
            (is_first, before) = (false, sequence);
            batches += u64::from(writes.is_between_batches());
            if sequence >= last {
                let is_found = sequence == last && writes.is_between_batches();
                return Ok(is_found.then_some((begin + writes.offset(), batches)));
            }
        }
        offset = begin + writes.offset();
        let ended = writes.ended().expect("no write is left");
        match windows.go_on(offset, ended)? {
            ControlFlow::Continue(place) => offset = place,
            ControlFlow::Break(_) => return Ok(is_first.then_some((offset, batches))),
        }
    }
}

/// The end of a log, in a part after a number of its batches.
fn numbered(ended: Ended, batches: u64) -> Ended {
    match ended {
        Ended::BatchFault { payload, fault } if fault != BatchFault::OutOfMemory => {
            let payload = payload + batches;
            Ended::BatchFault { payload, fault }
        }
        other => other,
    }
}
