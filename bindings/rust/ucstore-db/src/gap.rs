//! Gaps in the sequences of a log. The batch after one tells it, so that it isn't taken for writes that are missing.

use crate::header::{numbers_of, HEADER_SIZE};
use crate::mark::{self, LOG_DATA};
use crate::record::head_of;
use ucstore::{mark_bytes, mark_of};

/// The bytes of what a gap is told by.
const TOLD_SIZE: usize = 10;

/// A batch that tells the last sequence before its own.
pub(crate) fn tell(batch: &[u8], last: u64) -> Vec<u8> {
    let (header, body) = batch.split_at(HEADER_SIZE);
    [header, &told(last), body].concat()
}

/// Whether the batch at an offset of a log tells that this is the last sequence before its own. The log's bytes are given from there
/// on. A mark may stand before it.
pub(crate) fn is_told(rest: &[u8], offset: u64, last: u64) -> Result<bool, ucstore::Error> {
    let head = head_of(rest, offset, HEADER_SIZE + mark::MOST_SIZE + TOLD_SIZE);
    let body = head.get(HEADER_SIZE..).unwrap_or(&[]);
    let before = match mark_of(&head) {
        Some(unsynced) => mark_bytes(unsynced)?,
        None => vec![],
    };
    let told = told(last);
    Ok(body
        .strip_prefix(&before[..])
        .is_some_and(|rest| rest.starts_with(&told)))
}

/// The last sequence of the batch that stands at an offset of a log, of which these are the bytes from there on.
pub(crate) fn last_of(rest: &[u8], offset: u64) -> Option<u64> {
    let (sequence, count) = numbers_of(&head_of(rest, offset, HEADER_SIZE))?;
    (sequence + u64::from(count)).checked_sub(1)
}

/// The log data that tells a last sequence.
fn told(last: u64) -> [u8; TOLD_SIZE] {
    let mut told = [LOG_DATA, 8, 0, 0, 0, 0, 0, 0, 0, 0];
    told[2..].copy_from_slice(&last.to_le_bytes());
    told
}
