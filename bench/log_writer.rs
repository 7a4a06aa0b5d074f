//! Writes logs as LevelDB and RocksDB have them: records, batches and what stands in them, for the programs in plain Rust.

#[path = "crc32c.rs"]
mod crc32c;

/// The bytes of a block.
pub const BLOCK: usize = 32_768;
/// The bytes of a record's header.
pub const HEADER: usize = 7;

pub const FULL: u8 = 1;
pub const FIRST: u8 = 2;
pub const MIDDLE: u8 = 3;
pub const LAST: u8 = 4;

pub const DELETE: u8 = 0;
pub const PUT: u8 = 1;
pub const MERGE: u8 = 2;
pub const RANGE: u8 = 15;

/// The masked checksum of a record's type and data.
fn checksum(kind: u8, data: &[u8]) -> u32 {
    let crc = !crc32c::update(crc32c::update(!0, &[kind]), data);
    crc.rotate_right(15).wrapping_add(0xa282_ead8)
}

/// Adds a record, which has to fit the rest of the block.
pub fn push_record(log: &mut Vec<u8>, kind: u8, data: &[u8]) {
    log.extend_from_slice(&checksum(kind, data).to_le_bytes());
    log.extend_from_slice(&(data.len() as u16).to_le_bytes());
    log.push(kind);
    log.extend_from_slice(data);
}

/// Adds a payload at the end of the log.
pub fn push_payload(log: &mut Vec<u8>, payload: &[u8]) {
    let room = BLOCK - log.len() % BLOCK;
    if room < HEADER {
        log.resize(log.len() + room, 0);
    }
    let mut left = payload;
    let mut is_first = true;
    loop {
        let room = BLOCK - log.len() % BLOCK - HEADER;
        let (data, behind) = left.split_at(left.len().min(room));
        let kind = match (is_first, behind.is_empty()) {
            (true, true) => FULL,
            (true, false) => FIRST,
            (false, false) => MIDDLE,
            (false, true) => LAST,
        };
        push_record(log, kind, data);
        if behind.is_empty() {
            return;
        }
        left = behind;
        is_first = false;
    }
}

/// Adds a number, its low seven bits first.
pub fn push_varint(out: &mut Vec<u8>, mut number: usize) {
    while number >= 128 {
        out.push((number % 128 + 128) as u8);
        number /= 128;
    }
    out.push(number as u8);
}

/// Bytes after their length.
pub fn string(bytes: &[u8]) -> Vec<u8> {
    let mut out = Vec::new();
    push_varint(&mut out, bytes.len());
    out.extend_from_slice(bytes);
    out
}

/// The head of a batch.
pub fn head(seq: u64, writes: u32) -> Vec<u8> {
    [&seq.to_le_bytes()[..], &writes.to_le_bytes()].concat()
}
