//! Goes through a log's payloads and decodes their batches, in plain Rust: the programs that ours are measured
//! against share it.

#[path = "crc32c.rs"]
mod crc32c;

use std::fmt;

const BLOCK: usize = 32_768;
const HEADER: usize = 7;
const SEQUENCES: u64 = 1 << 56;

/// The masked checksum of a record's type and data, which lie one after the other.
pub fn checksum(bytes: &[u8]) -> u32 {
    let crc = !crc32c::update(!0, bytes);
    crc.rotate_right(15).wrapping_add(0xa282_ead8)
}

/// The end of a log.
#[derive(Clone, Copy)]
pub enum Ended {
    Clean,
    Torn(usize),
    Log(&'static str, usize),
    Batch(u64, BatchFault),
}

/// Why a payload is no batch, or not one that may follow.
#[derive(Clone, Copy)]
pub enum BatchFault {
    TooShort,
    SequenceBack(u64),
    SequenceTooLarge,
    BadTag(u8, usize),
    Cut(usize),
    BadVarint(usize),
    OtherFamily(u32),
    WrongCount,
}

impl fmt::Display for BatchFault {
    fn fmt(&self, f: &mut fmt::Formatter) -> fmt::Result {
        match self {
            BatchFault::TooShort => write!(f, "too short"),
            BatchFault::SequenceBack(last) => write!(f, "sequence back {last}"),
            BatchFault::SequenceTooLarge => write!(f, "sequence too large"),
            BatchFault::BadTag(tag, offset) => write!(f, "bad tag {tag} {offset}"),
            BatchFault::Cut(offset) => write!(f, "cut {offset}"),
            BatchFault::BadVarint(offset) => write!(f, "bad varint {offset}"),
            BatchFault::OtherFamily(id) => write!(f, "other family {id}"),
            BatchFault::WrongCount => write!(f, "wrong count"),
        }
    }
}

impl fmt::Display for Ended {
    fn fmt(&self, f: &mut fmt::Formatter) -> fmt::Result {
        match self {
            Ended::Clean => write!(f, "clean"),
            Ended::Torn(offset) => write!(f, "torn {offset}"),
            Ended::Log(words, offset) => write!(f, "log fault {words} {offset}"),
            Ended::Batch(number, fault) => write!(f, "batch fault {number} {fault}"),
        }
    }
}

/// A payload that isn't complete yet.
struct Open {
    start: usize,
    fragments: usize,
}

/// Goes through the records of a log.
pub struct LogReader<'a> {
    log: &'a [u8],
    place: usize,
    open: Option<Open>,
    /// The data of the open payload.
    joined: Vec<u8>,
}

impl<'a> LogReader<'a> {
    pub fn new(log: &'a [u8]) -> Self {
        LogReader {
            log,
            place: 0,
            open: None,
            joined: Vec::new(),
        }
    }

    fn torn(&self) -> Ended {
        Ended::Torn(self.open.as_ref().map_or(self.place, |open| open.start))
    }

    /// The type and the data of the next record.
    fn record(&mut self) -> Result<(u8, &'a [u8]), Ended> {
        let mut room = BLOCK - self.place % BLOCK;
        if room < HEADER {
            self.place = self.log.len().min(self.place + room);
            room = BLOCK;
        }
        let rest = &self.log[self.place..];
        if rest.iter().all(|byte| *byte == 0) {
            return Err(if self.open.is_some() {
                self.torn()
            } else {
                Ended::Clean
            });
        }
        if rest.len() < HEADER {
            return Err(self.torn());
        }
        let len = usize::from(u16::from_le_bytes([rest[4], rest[5]]));
        if len > room - HEADER {
            return Err(Ended::Log("bad length", self.place));
        }
        if len > rest.len() - HEADER {
            return Err(self.torn());
        }
        let stored = u32::from_le_bytes([rest[0], rest[1], rest[2], rest[3]]);
        if checksum(&rest[6..HEADER + len]) != stored {
            return Err(Ended::Log("bad checksum", self.place));
        }
        Ok((rest[6], &rest[HEADER..HEADER + len]))
    }

    /// Begins a payload, where none is open but an empty FIRST.
    fn begin(&mut self, words: &'static str) -> Result<(), Ended> {
        match &self.open {
            Some(open) if open.fragments > 1 || !self.joined.is_empty() => {
                Err(Ended::Log(words, self.place))
            }
            _ => {
                self.joined.clear();
                self.open = None;
                Ok(())
            }
        }
    }

    /// Adds a fragment to the open payload.
    fn go_on(&mut self, data: &[u8], words: &'static str) -> Result<(), Ended> {
        let Some(open) = &mut self.open else {
            return Err(Ended::Log(words, self.place));
        };
        open.fragments += 1;
        self.joined.extend_from_slice(data);
        Ok(())
    }

    /// The next payload, or how the log ends.
    pub fn payload(&mut self) -> Result<&[u8], Ended> {
        if self.open.is_none() {
            self.joined.clear();
        }
        loop {
            let (kind, data) = self.record()?;
            match kind {
                1 => self.begin("full inside")?,
                2 => {
                    self.begin("first inside")?;
                    self.joined.extend_from_slice(data);
                    self.open = Some(Open {
                        start: self.place,
                        fragments: 1,
                    });
                }
                3 => self.go_on(data, "middle alone")?,
                4 => self.go_on(data, "last alone")?,
                _ => return Err(Ended::Log("unsupported type", self.place)),
            }
            self.place += HEADER + data.len();
            match kind {
                1 => return Ok(data),
                4 => {
                    self.open = None;
                    return Ok(&self.joined);
                }
                _ => {}
            }
        }
    }
}

/// The effect of a counted record.
#[derive(Clone, Copy)]
pub enum Op<'a> {
    Put(&'a [u8], &'a [u8]),
    Delete(&'a [u8]),
    Merge(&'a [u8], &'a [u8]),
    Range(&'a [u8], &'a [u8]),
}

/// Goes through the bytes of a batch.
struct BatchReader<'a> {
    bytes: &'a [u8],
    at: usize,
    /// Where the present record's tag is.
    tag: usize,
}

impl<'a> BatchReader<'a> {
    fn varint(&mut self) -> Result<u32, BatchFault> {
        let start = self.at;
        let mut number = 0u32;
        for place in 0..5 {
            let byte = *self.bytes.get(self.at).ok_or(BatchFault::Cut(self.tag))?;
            self.at += 1;
            if place == 4 && byte > 0x0f {
                return Err(BatchFault::BadVarint(start));
            }
            number |= u32::from(byte & 0x7f) << (7 * place);
            if byte < 0x80 {
                break;
            }
        }
        Ok(number)
    }

    fn string(&mut self) -> Result<&'a [u8], BatchFault> {
        let len = self.varint()? as usize;
        let rest = &self.bytes[self.at..];
        let string = rest.get(..len).ok_or(BatchFault::Cut(self.tag))?;
        self.at += len;
        Ok(string)
    }

    fn family(&mut self) -> Result<(), BatchFault> {
        match self.varint()? {
            0 => Ok(()),
            id => Err(BatchFault::OtherFamily(id)),
        }
    }

    /// The next record, with nothing where it isn't counted.
    fn record(&mut self) -> Result<Option<Op<'a>>, BatchFault> {
        self.tag = self.at;
        let tag = self.bytes[self.at];
        self.at += 1;
        if matches!(tag, 0x04 | 0x05 | 0x06 | 0x08 | 0x0e) {
            self.family()?;
        }
        Ok(Some(match tag {
            0x00 | 0x04 | 0x07 | 0x08 => Op::Delete(self.string()?),
            0x01 | 0x05 => Op::Put(self.string()?, self.string()?),
            0x02 | 0x06 => Op::Merge(self.string()?, self.string()?),
            0x0e | 0x0f => Op::Range(self.string()?, self.string()?),
            0x03 => {
                self.string()?;
                return Ok(None);
            }
            0x0d => return Ok(None),
            _ => return Err(BatchFault::BadTag(tag, self.tag)),
        }))
    }
}

/// Reads a batch that comes after the sequence `last`, and gives its own sequence.
pub fn read_batch<'a>(bytes: &'a [u8], last: u64, ops: &mut Vec<Op<'a>>) -> Result<u64, BatchFault> {
    let (Some(seq), Some(count)) = (bytes.get(..8), bytes.get(8..12)) else {
        return Err(BatchFault::TooShort);
    };
    let seq = u64::from_le_bytes(seq.try_into().unwrap());
    let count = u32::from_le_bytes(count.try_into().unwrap());
    if count > 0 && seq <= last {
        return Err(BatchFault::SequenceBack(last));
    }
    if count > 0 && (seq >= SEQUENCES || u64::from(count) > SEQUENCES - seq) {
        return Err(BatchFault::SequenceTooLarge);
    }
    let mut reader = BatchReader {
        bytes,
        at: 12,
        tag: 12,
    };
    while reader.at < bytes.len() {
        ops.extend(reader.record()?);
    }
    if ops.len() as u64 != u64::from(count) {
        return Err(BatchFault::WrongCount);
    }
    Ok(seq)
}
