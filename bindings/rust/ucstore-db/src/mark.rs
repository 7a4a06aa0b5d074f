//! Marks: up to where a log was on the device when a record was written. Each record of a log tells it in its batch, as log data
//! right after the header. The library writes and reads them, and finds by them what is damage, and not what a crash left.

use crate::header::HEADER_SIZE;
use ucstore::{mark_bytes, Operator, Store};

/// The tag of log data in a batch: bytes that are no operation (RocksDB, `write_batch.cc`).
pub(crate) const LOG_DATA: u8 = 3;

/// The most bytes of a mark.
pub(crate) const MOST_SIZE: usize = 12;

/// A batch with a mark: this many bytes before its record aren't known to be on the device.
pub(crate) fn with_mark(batch: &[u8], unsynced: u64) -> Result<Vec<u8>, ucstore::Error> {
    let (header, body) = batch.split_at(HEADER_SIZE);
    Ok([header, &mark_bytes(unsynced)?, body].concat())
}

/// The record by which a close says that a log of some length is on the device, up to a last sequence: a batch without operations. It
/// is numbered as the next one would be.
pub(crate) fn closing_record(length: u64, last: u64) -> Result<Vec<u8>, ucstore::Error> {
    let mut header = [0; HEADER_SIZE];
    header[..8].copy_from_slice(&(last + 1).to_le_bytes());
    // Its spelling depends on no operator.
    let store = Store::create(Operator::Append, &ucstore::Options::default())?;
    store.prepare_marked(length, &header, 0)
}

#[cfg(test)]
mod tests {
    use super::*;
    use ucstore::mark_of;

    #[test]
    fn marks_are_read_as_they_are_written() {
        for unsynced in [0, 1, 127, 128, 300, 1 << 20, 1 << 40, (1 << 63) - 1] {
            let marked = with_mark(&[7; HEADER_SIZE + 4], unsynced).unwrap();
            assert!(marked.len() <= HEADER_SIZE + 4 + MOST_SIZE);
            assert!(marked.starts_with(&[7; HEADER_SIZE]) && marked.ends_with(&[7; 4]));
            assert_eq!(mark_of(&marked), Some(unsynced));
        }
        assert_eq!(mark_bytes(0).unwrap(), [3, 2, b's', 0]);
    }

    #[test]
    fn other_log_data_is_no_mark() {
        for body in [
            &[][..],
            &[3],
            &[3, 0, b's'],
            &[3, 1, b's'],
            &[3, 2, b't', 0],
            &[3, 2, b's', 0x80],
            &[3, 3, b's', 0],
            &[3, 3, b's', 0, 0],
            &[1, 2, b's', 0],
            &[3, 8, 0, 0, 0, 0, 0, 0, 0, 0],
        ] {
            assert_eq!(mark_of(&[&[7; HEADER_SIZE], body].concat()), None);
        }
    }
}
