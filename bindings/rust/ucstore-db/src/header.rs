//! The header of a batch: its sequence and its count.

/// Its bytes.
pub(crate) const HEADER_SIZE: usize = 12;

/// The sequence of a batch's first operation, and how many it has; none if it is shorter than a header.
pub(crate) fn numbers_of(batch: &[u8]) -> Option<(u64, u32)> {
    let (sequence, rest) = batch.split_first_chunk()?;
    let count = rest.first_chunk()?;
    Some((u64::from_le_bytes(*sequence), u32::from_le_bytes(*count)))
}

/// The number of a batch's operations.
pub(crate) fn count_of(batch: &[u8]) -> u32 {
    let (_, count) = numbers_of(batch).expect("a batch has a header");
    count
}
