//! Syncs of the log, while it is written to, and its end.

use crate::error::Error;
use crate::lock;
use crate::log::{sync_apart, Log};
use crate::shared::Shared;
use std::sync::atomic::Ordering;
use std::sync::MutexGuard;
use std::thread;
use std::time::Duration;

impl Shared {
    /// Waits until all acknowledged writes are on the device. Others write meanwhile.
    pub(crate) fn sync(&self) -> Result<(), Error> {
        let outcome = self.sync_log().map(drop);
        self.events.tell();
        outcome
    }

    /// Syncs the log, unless it failed before: what a failed sync leaves isn't known. The log isn't locked meanwhile, but if it has no
    /// second handle. Returns it locked; there is none in memory, and once the database is closed.
    pub(crate) fn sync_log(&self) -> Result<MutexGuard<'_, Option<Log>>, Error> {
        loop {
            let mut guard = lock(&self.log);
            self.check()?;
            let Some(log) = &mut *guard else {
                return Ok(guard);
            };
            let Some(handle) = log.sync_handle() else {
                log.sync().map_err(|error| self.fail(error))?;
                return Ok(guard);
            };
            drop(guard);
            // One thread at a time asks for a sync and tells how it went.
            let mut file = lock(&handle);
            let mut guard = lock(&self.log);
            self.check()?;
            let Some(apart) = guard.as_mut().and_then(|log| log.begin_sync(&handle)) else {
                continue;
            };
            drop(guard);
            let outcome = sync_apart(&mut **file);
            let mut guard = lock(&self.log);
            if let Some(log) = &mut *guard {
                log.end_sync(&apart, outcome)
                    .map_err(|error| self.fail(error))?;
            }
            return Ok(guard);
        }
    }

    /// Syncs once a period, until the database closes.
    pub(crate) fn sync_until_closed(&self, period: Duration) {
        while !self.is_closing.load(Ordering::Acquire) {
            thread::park_timeout(period);
            if let Err(error) = self.sync() {
                return self.note(error);
            }
        }
    }

    /// Ends the log, and refuses all writes from now on. Returns what failed before.
    pub(crate) fn close_log(&self) -> Result<(), Error> {
        let mut log = lock(&self.log);
        let last = lock(&self.store).last();
        let outcome = match &mut *log {
            Some(log) => self
                .check()
                .and_then(|()| log.close(last).map_err(|error| self.fail(error))),
            None if self.is_salvaged => Ok(()),
            None => self.check(),
        };
        self.fail(Error::Closed);
        *log = None;
        drop(log);
        self.events.tell();
        outcome?;
        lock(&self.noted).take().map_or(Ok(()), Err)
    }
}
