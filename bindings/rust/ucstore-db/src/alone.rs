//! Batches that are spelled already, which are written alone.

use crate::error::Error;
use crate::gap;
use crate::group::Groups;
use crate::header::{numbers_of, HEADER_SIZE};
use crate::lock;
use crate::shared::Shared;

impl Shared {
    /// Writes a batch with its own sequence, or after the last one if that is 0. If there is a gap before it, its record tells that.
    pub(crate) fn write_alone(&self, batch: &[u8], is_synced: bool) -> Result<(), Error> {
        let (sequence, count) = numbers_of(batch).ok_or(ucstore::Error::NotABatch)?;
        if count == 0 {
            return match batch.len() {
                HEADER_SIZE => self.check(),
                _ => Err(ucstore::Error::NotABatch.into()),
            };
        }
        let mut log = lock(&self.log);
        let last = lock(&self.store).last();
        let batch = match sequence > last + 1 {
            true => gap::tell(batch, last),
            false => copy(batch)?,
        };
        // A group of its own: with others in it, the batch would lose its sequence.
        let groups = Groups::default();
        groups.join(batch, is_synced, false);
        let outcome = self.take(&mut log, &mut groups.close());
        drop(log);
        self.events.tell();
        outcome
    }
}

/// A copy of a batch whose size the caller chose.
fn copy(batch: &[u8]) -> Result<Vec<u8>, ucstore::Error> {
    let mut copy = Vec::new();
    copy.try_reserve_exact(batch.len())?;
    copy.extend_from_slice(batch);
    Ok(copy)
}
