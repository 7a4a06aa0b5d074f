//! Records of a log, in which batches stand (LevelDB, `log_format.md`).

/// The bytes of a block, across which no record goes.
pub(crate) const BLOCK_SIZE: u64 = 32_768;

/// The bytes of a record's header.
pub(crate) const HEADER_SIZE: usize = 7;

/// The types of the records with which a batch ends: one that has all of it, and the last of several.
pub(crate) const FULL: u8 = 1;
const LAST: u8 = 4;

/// The types that a record may have.
const CODES: std::ops::RangeInclusive<u8> = FULL..=LAST;

/// The most records that hold the first bytes of a batch.
const MOST_PARTS: usize = 3;

/// The header of a record.
#[derive(Clone, Copy, Debug, PartialEq, Eq)]
pub(crate) struct Header {
    pub(crate) checksum: u32,
    pub(crate) length: u16,
    pub(crate) code: u8,
}

impl Header {
    /// The header at the front of some bytes, if there are as many.
    pub(crate) fn of(bytes: &[u8]) -> Option<Header> {
        let [c0, c1, c2, c3, l0, l1, code] = *bytes.first_chunk::<HEADER_SIZE>()?;
        Some(Header {
            checksum: u32::from_le_bytes([c0, c1, c2, c3]),
            length: u16::from_le_bytes([l0, l1]),
            code,
        })
    }

    /// Where the record at a place ends, if its block has as many bytes. Zeros are no record.
    pub(crate) fn end_at(&self, place: u64) -> Option<u64> {
        let end = place + HEADER_SIZE as u64 + u64::from(self.length);
        let is_record = self.code != 0 || self.length > 0;
        (is_record && end <= block_of(place) + BLOCK_SIZE).then_some(end)
    }
}

/// The start of the block that a place lies in.
pub(crate) fn block_of(place: u64) -> u64 {
    place - place % BLOCK_SIZE
}

/// Where a record may begin at a place or after it: the last bytes of a block hold no header.
pub(crate) fn header_place(place: u64) -> u64 {
    match BLOCK_SIZE - place % BLOCK_SIZE {
        left if left < HEADER_SIZE as u64 => place + left,
        _ => place,
    }
}

/// The first bytes of the batch at an offset of a log, of which the rest is given: as many as asked for, if the batch has as many.
pub(crate) fn head_of(rest: &[u8], offset: u64, size: usize) -> Vec<u8> {
    let (mut head, mut place) = (Vec::with_capacity(size), 0);
    for _ in 0..MOST_PARTS {
        place = (header_place(offset + place as u64) - offset) as usize;
        let Some(header) = rest.get(place..).and_then(Header::of) else {
            break;
        };
        place += HEADER_SIZE;
        let end = (place + usize::from(header.length)).min(rest.len());
        let data = &rest[place..end];
        head.extend_from_slice(&data[..data.len().min(size - head.len())]);
        place = end;
        let is_last = matches!(header.code, FULL | LAST) || !CODES.contains(&header.code);
        if head.len() == size || is_last {
            break;
        }
    }
    head
}

#[cfg(test)]
mod tests {
    use super::*;

    fn record(code: u8, data: &[u8]) -> Vec<u8> {
        let mut record = vec![0; 4];
        record.extend((data.len() as u16).to_le_bytes());
        record.push(code);
        record.extend(data);
        record
    }

    #[test]
    fn a_head_ends_with_its_batch() {
        let log = [record(1, b"first"), record(1, b"second")].concat();
        assert_eq!(head_of(&log, 0, 12), b"first");
        assert_eq!(head_of(&log[12..], 12, 3), b"sec");
        assert_eq!(head_of(&log[12..15], 12, 3), b"");
    }

    #[test]
    fn a_head_may_go_on_in_the_next_block() {
        let offset = BLOCK_SIZE - 9;
        let parts = [record(2, b"ab"), record(4, b"cdef")].concat();
        assert_eq!(head_of(&parts, offset, 5), b"abcde");
        assert_eq!(header_place(BLOCK_SIZE - 6), BLOCK_SIZE);
        assert_eq!(header_place(BLOCK_SIZE - 7), BLOCK_SIZE - 7);
    }

    #[test]
    fn records_without_data_are_passed_over_a_few_times_alone() {
        let empty = record(2, b"").repeat(4000);
        assert_eq!(head_of(&empty, 0, 12), b"");
    }

    #[test]
    fn a_record_ends_in_its_block() {
        let header = Header::of(&record(1, &[7; 20])).unwrap();
        assert_eq!(header.end_at(BLOCK_SIZE - 27), Some(BLOCK_SIZE));
        assert_eq!(header.end_at(BLOCK_SIZE - 26), None);
        assert_eq!(Header::of(&[0; 7]).unwrap().end_at(0), None);
    }
}
