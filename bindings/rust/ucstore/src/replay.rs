//! [`Replay`]: writing the batches of a log to a store again.

use crate::ended::Ended;
use crate::error::{check, Error};
use crate::store::Store;
use crate::sys;

/// The result of replaying the next batch of a log.
#[derive(Clone, Copy, Debug, PartialEq, Eq)]
pub enum Replayed {
    /// The batch was written.
    Batch,
    /// The batch was not written, since it does not follow the store's last sequence number.
    Gap,
    /// There is no valid next batch: where and why reading the log ended.
    Ended(Ended),
}

/// A log whose batches are replayed to a store, one with each call, from [`Store::replay`].
#[derive(Debug)]
pub struct Replay<'a> {
    store: &'a Store,
    log: &'a [u8],
    place: sys::ucstore_log_place,
}

impl<'a> Replay<'a> {
    /// The replay of a log whose batches after a place follow those that the store has.
    pub(crate) fn of(store: &'a Store, log: &'a [u8], place: sys::ucstore_log_place) -> Replay<'a> {
        let last = store.last();
        Replay {
            store,
            log,
            place: sys::ucstore_log_place { last, ..place },
        }
    }

    /// Writes the next batch, with its sequence numbers. If it does not follow the last sequence number, it is written only if
    /// `may_skip` is true.
    ///
    /// # Errors
    ///
    /// Those of [`Store::write`]: the batch is not written then. [`Error::Unexpected`] if there were other writes to the store.
    pub fn write_next(&mut self, may_skip: bool) -> Result<Replayed, Error> {
        let mut ended = sys::ucstore_ended::default();
        let status = unsafe {
            sys::ucstore_replay(
                self.store.handle(),
                self.log.as_ptr(),
                self.log.len(),
                &mut self.place,
                may_skip,
                &mut ended,
            )
        };
        match status {
            sys::UCSTORE_SEQUENCE_GAP => Ok(Replayed::Gap),
            sys::UCSTORE_LOG_ENDS => Ok(Replayed::Ended(Ended::of(ended))),
            status => check(status).map(|()| Replayed::Batch),
        }
    }

    /// Returns the last sequence number of the store.
    pub fn last(&self) -> u64 {
        self.place.last
    }

    /// Returns the position after the batches that were written.
    pub fn offset(&self) -> u64 {
        self.place.offset
    }
}
