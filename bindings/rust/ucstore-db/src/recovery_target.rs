//! [`RecoveryTarget`]: the sequences that the options name, at which a replay makes snapshots and ends.

use crate::error::Error;
use crate::name::Name;
use crate::options::Options;
use crate::windows::Windows;
use std::ops::ControlFlow;
use ucstore::{log_writes_at, LogPlace, Store, View};

/// The sequences at which a replay makes snapshots, and the one at which it ends. Each has to be the end of a batch.
pub(crate) struct RecoveryTarget {
    /// The marks that aren't reached yet: the least one is last.
    left: Vec<u64>,
    end: Option<u64>,
    /// Up to which sequence a batch may begin that is given up.
    give_up_until: u64,
    /// The views at the marks that were reached.
    pub(crate) marks: Vec<View>,
    /// The file that is read.
    name: Name,
}

impl RecoveryTarget {
    /// The target of the options.
    pub(crate) fn of(options: &Options) -> RecoveryTarget {
        let mut left = options.marks.clone();
        left.sort_unstable_by(|one, other| other.cmp(one));
        left.dedup();
        RecoveryTarget {
            left,
            end: options.recover_to,
            give_up_until: options.give_up_until,
            marks: vec![],
            name: Name::Log(1),
        }
    }

    /// None.
    pub(crate) fn none() -> RecoveryTarget {
        RecoveryTarget::of(&Options::default())
    }

    /// Tells which file is read from now on.
    pub(crate) fn begin(&mut self, name: Name) {
        self.name = name;
    }

    /// Whether one of them comes before a sequence, which is the next one.
    pub(crate) fn are_due(&self, next: u64) -> bool {
        self.due().is_some_and(|due| due < next)
    }

    /// Makes a snapshot of a store, if there is a mark. Tells whether the replay ends here, after the batch that ends at the offset.
    pub(crate) fn reach(&mut self, store: &Store, offset: u64) -> Result<bool, Error> {
        let last = store.last();
        if let Some(due) = self.due().filter(|due| *due < last) {
            let fault = format!("no batch ends at sequence {due}: this one ends at {last}");
            return Err(self.refusal(offset, fault));
        }
        if self.left.last() == Some(&last) {
            self.marks.push(store.view()?);
            self.left.pop();
        }
        Ok(self.end == Some(last))
    }

    /// Checks that all of them were reached, where what is read ends.
    pub(crate) fn finish(&mut self, store: &Store, offset: u64) -> Result<(), Error> {
        let last = store.last();
        self.reach(store, offset)?;
        match self.left.first().max(self.end.as_ref()) {
            Some(due) if *due > last => {
                let fault = format!("the batches end at sequence {last}, before {due}");
                Err(self.refusal(offset, fault))
            }
            _ => Ok(()),
        }
    }

    /// Checks a log of which batches are given up: none of these begins after the sequence up to which they may.
    pub(crate) fn check_given_up(&self, name: Name, windows: &mut Windows) -> Result<(), Error> {
        let most = self.give_up_until.max(self.end.unwrap_or(0));
        let mut at = LogPlace::default();
        windows.seek(0)?;
        loop {
            let begin = windows.begin();
            let offset = at.offset - begin;
            let mut writes = log_writes_at(windows.bytes(), LogPlace { offset, ..at });
            loop {
                let (offset, begins) = (begin + writes.offset(), writes.is_between_batches());
                let Some(write) = writes.next_write()? else {
                    break;
                };
                at.last = write.sequence;
                if begins && at.last > most {
                    return Err(was_acknowledged(name, offset, at.last));
                }
            }
            at.offset = begin + writes.offset();
            let ended = writes.ended().expect("no write is left");
            match windows.go_on(at.offset, ended)? {
                ControlFlow::Continue(offset) => at.offset = offset,
                ControlFlow::Break(_) => return Ok(()),
            }
        }
    }

    /// The next one.
    fn due(&self) -> Option<u64> {
        let mark = self.left.last().copied();
        mark.into_iter().chain(self.end).min()
    }

    fn refusal(&self, offset: u64, fault: String) -> Error {
        refusal(self.name, offset, fault)
    }
}

/// The error that a batch that begins at a sequence can't be given up.
fn was_acknowledged(name: Name, offset: u64, begin: u64) -> Error {
    let before = begin - 1;
    let fault = format!("a batch begins at sequence {begin}, so that {before} was acknowledged");
    refusal(name, offset, fault)
}

/// The error that a file can't be recovered to a sequence.
fn refusal(name: Name, offset: u64, fault: String) -> Error {
    Error::NotRecoverable {
        file: name.text(),
        offset,
        fault,
    }
}
