//! [`RunList`]: a checkpoint that names run files.
//!
//! Numbers are little-endian. A list is a head of 32 bytes, an entry of 36 bytes for each run, the oldest first, and the CRC-32C of all
//! bytes before it.

use crate::checksum::Crc;
use crate::error::Error;
use crate::folder::Folder;
use crate::name::Name;
use crate::recovery::damaged;
use ucstore::Operator;

/// The first bytes of a list.
const MAGIC: [u8; 8] = *b"ucslist\n";

/// The version of the format.
const VERSION: u32 = 1;

/// The size of the head in bytes: the magic bytes, the version, the operator, the last sequence, and the number of runs.
const HEAD: usize = 8 + 4 + 4 + 8 + 8;

/// The size of an entry in bytes: the fields of a [`ListedRun`].
const ENTRY: usize = 8 + 8 + 8 + 8 + 4;

/// The size of the checksum in bytes.
const CHECKSUM: usize = 4;

/// The greatest number of runs, as of a store.
const MOST_RUNS: usize = 256;

/// The operators by their numbers.
const OPERATORS: [Operator; 5] = [
    Operator::Append,
    Operator::Counter,
    Operator::Maximum,
    Operator::Tail,
    Operator::Mixed,
];

/// A run file, as a list names it.
#[derive(Clone, Copy, Debug, PartialEq, Eq)]
pub(crate) struct ListedRun {
    /// The number in the name of the file.
    pub(crate) number: u64,
    /// Size of the file in bytes.
    pub(crate) size: u64,
    /// The least sequence number of the run.
    pub(crate) low: u64,
    /// The greatest sequence number of the run.
    pub(crate) high: u64,
    /// CRC-32C of the last 64 bytes of the file, which have the checksums of the others.
    pub(crate) checksum: u32,
}

/// The contents of a list.
#[derive(Clone, Debug, PartialEq, Eq)]
pub(crate) struct RunList {
    pub(crate) operator: Operator,
    /// The runs, the oldest first. Their ranges of sequence numbers ascend.
    pub(crate) runs: Vec<ListedRun>,
}

/// A fault of a list, with the offset at which it is.
#[derive(Clone, Debug, PartialEq, Eq)]
pub(crate) struct ListFault {
    offset: usize,
    fault: String,
}

impl RunList {
    /// Returns the last sequence number of the runs: 0 if there are none.
    pub(crate) fn last(&self) -> u64 {
        self.runs.last().map_or(0, |run| run.high)
    }

    /// Returns the numbers of the run files.
    pub(crate) fn numbers(&self) -> Vec<u64> {
        self.runs.iter().map(|run| run.number).collect()
    }

    /// Returns the bytes of the list.
    pub(crate) fn bytes(&self) -> Vec<u8> {
        let mut bytes = Vec::with_capacity(HEAD + self.runs.len() * ENTRY + CHECKSUM);
        bytes.extend(MAGIC);
        bytes.extend(VERSION.to_le_bytes());
        bytes.extend((self.operator as u32).to_le_bytes());
        bytes.extend(self.last().to_le_bytes());
        bytes.extend((self.runs.len() as u64).to_le_bytes());
        for run in &self.runs {
            for field in [run.number, run.size, run.low, run.high] {
                bytes.extend(field.to_le_bytes());
            }
            bytes.extend(run.checksum.to_le_bytes());
        }
        bytes.extend(Crc::of(&bytes).to_le_bytes());
        bytes
    }

    /// Reads the bytes of a list.
    pub(crate) fn of(bytes: &[u8]) -> Result<RunList, ListFault> {
        let mut fields = Fields { bytes, offset: 0 };
        if fields.take::<8>()? != MAGIC {
            return Err(fault(0, "it is no list of runs"));
        }
        let version = u32::from_le_bytes(fields.take()?);
        if version != VERSION {
            return Err(fault(8, format!("version {version} of lists isn't known")));
        }
        let operator = u32::from_le_bytes(fields.take()?);
        let (last, count) = (fields.number()?, fields.number()?);
        // The number of runs isn't trusted before the length of the file agrees.
        let found = usize::try_from(count).unwrap_or(usize::MAX);
        if found > MOST_RUNS || bytes.len() != HEAD + found * ENTRY + CHECKSUM {
            let length = bytes.len();
            return Err(fault(24, format!("{count} runs don't fit {length} bytes")));
        }
        let (body, checksum) = bytes.split_at(bytes.len() - CHECKSUM);
        if checksum != Crc::of(body).to_le_bytes() {
            return Err(fault(0, "a checksum that doesn't match"));
        }
        let operator = OPERATORS
            .into_iter()
            .find(|known| *known as u32 == operator);
        let operator = operator.ok_or_else(|| fault(12, "it names no operator"))?;
        let mut list = RunList {
            operator,
            runs: Vec::with_capacity(found),
        };
        while list.runs.len() < found {
            let offset = fields.offset;
            let run = fields.run()?;
            if !list.takes(&run) {
                return Err(fault(offset, format!("run {} is out of order", run.number)));
            }
            list.runs.push(run);
        }
        match list.last() == last {
            true => Ok(list),
            false => Err(fault(16, format!("its runs don't end at sequence {last}"))),
        }
    }

    /// Whether a run may follow the others: it has another number, and later sequence numbers.
    fn takes(&self, run: &ListedRun) -> bool {
        let is_other = self.runs.iter().all(|other| other.number != run.number);
        is_other && run.number > 0 && self.last() < run.low && run.low <= run.high
    }

    /// Reads a list of a folder. Its name tells the last sequence number of its runs.
    pub(crate) fn read(folder: &dyn Folder, name: Name) -> Result<RunList, Error> {
        let text = name.text();
        // No list is longer, whatever length the file has.
        let most = HEAD + MOST_RUNS * ENTRY + CHECKSUM + 1;
        let bytes = folder.read_at(&text, 0, most);
        let bytes = bytes.map_err(Error::of_file(&text))?;
        let list = RunList::of(&bytes).map_err(|it| damaged(name, it.offset as u64, it.fault))?;
        match name {
            Name::List(_, last) if list.last() != last => {
                let fault = format!("it ends at sequence {}, and not at {last}", list.last());
                Err(damaged(name, 16, fault))
            }
            _ => Ok(list),
        }
    }
}

/// A fault at an offset.
fn fault(offset: usize, fault: impl Into<String>) -> ListFault {
    ListFault {
        offset,
        fault: fault.into(),
    }
}

/// The fields of a list that follow an offset.
struct Fields<'a> {
    bytes: &'a [u8],
    offset: usize,
}

impl Fields<'_> {
    /// Takes the next bytes.
    fn take<const SIZE: usize>(&mut self) -> Result<[u8; SIZE], ListFault> {
        let rest = self.bytes.get(self.offset..).unwrap_or_default();
        let Some(field) = rest.first_chunk() else {
            return Err(fault(self.bytes.len(), "it ends within a field"));
        };
        self.offset += SIZE;
        Ok(*field)
    }

    /// Takes the next number.
    fn number(&mut self) -> Result<u64, ListFault> {
        self.take().map(u64::from_le_bytes)
    }

    /// Takes the next entry.
    fn run(&mut self) -> Result<ListedRun, ListFault> {
        Ok(ListedRun {
            number: self.number()?,
            size: self.number()?,
            low: self.number()?,
            high: self.number()?,
            checksum: u32::from_le_bytes(self.take()?),
        })
    }
}

#[cfg(test)]
mod tests {
    use super::*;

    fn run(number: u64, low: u64, high: u64) -> ListedRun {
        ListedRun {
            number,
            size: 100 * number,
            low,
            high,
            checksum: 0x0102_0304,
        }
    }

    fn list(runs: &[ListedRun]) -> RunList {
        RunList {
            operator: Operator::Counter,
            runs: runs.to_vec(),
        }
    }

    /// The bytes of a list whose checksum is right.
    fn sealed(mut bytes: Vec<u8>) -> Vec<u8> {
        bytes.truncate(bytes.len() - CHECKSUM);
        bytes.extend(Crc::of(&bytes).to_le_bytes());
        bytes
    }

    #[test]
    fn a_list_is_read_as_it_was_written() {
        let many = Vec::from_iter((1..=256).map(|number| run(number, 2 * number, 2 * number + 1)));
        for runs in [&[][..], &[run(9, 1, 5), run(3, 6, 6)], &many] {
            let list = list(runs);
            assert_eq!(RunList::of(&list.bytes()), Ok(list));
        }
        let last = list(&[run(9, 1, 5), run(3, 6, 7)]);
        assert_eq!((last.last(), last.numbers()), (7, vec![9, 3]));
        assert_eq!(last.bytes().len(), 32 + 2 * 36 + 4);
        assert_eq!(list(&[]).last(), 0);
    }

    #[test]
    fn each_damaged_byte_and_each_cut_is_noticed() {
        let bytes = list(&[run(9, 1, 5), run(3, 6, 7)]).bytes();
        for place in 0..bytes.len() {
            for flipped in [0x01, 0x80, 0xff] {
                let mut damaged = bytes.clone();
                damaged[place] ^= flipped;
                let found = RunList::of(&damaged).unwrap_err();
                assert!(found.offset <= place, "{place}: {found:?}");
            }
            let found = RunList::of(&bytes[..place]).unwrap_err();
            assert!(found.offset <= place, "{place}: {found:?}");
        }
        let twice = [&bytes[..], &bytes].concat();
        assert!(RunList::of(&twice).is_err());
        assert!(RunList::of(&[&bytes[..], &[0]].concat()).is_err());
    }

    #[test]
    fn lies_with_a_right_checksum_are_refused() {
        let whole = list(&[run(9, 1, 5), run(3, 6, 7)]);
        let with = |offset: usize, field: &[u8]| {
            let mut bytes = whole.bytes();
            bytes[offset..offset + field.len()].copy_from_slice(field);
            RunList::of(&sealed(bytes)).unwrap_err()
        };
        let version = with(8, &2u32.to_le_bytes());
        assert_eq!(version, fault(8, "version 2 of lists isn't known"));
        assert_eq!(with(12, &[99]), fault(12, "it names no operator"));
        let last = with(16, &6u64.to_le_bytes());
        assert_eq!(last, fault(16, "its runs don't end at sequence 6"));
        for count in [0, 1, 3, u64::MAX, u64::MAX / 36] {
            assert_eq!(with(24, &count.to_le_bytes()).offset, 24);
        }
        // The second run has the number of the first one, or begins in it.
        let second = HEAD + ENTRY;
        let again = with(second, &9u64.to_le_bytes());
        assert_eq!(again, fault(second, "run 9 is out of order"));
        assert_eq!(with(second + 16, &5u64.to_le_bytes()).offset, second);
        assert_eq!(with(second, &0u64.to_le_bytes()).offset, second);
        let many = Vec::from_iter((1..=257).map(|number| run(number, number, number)));
        assert_eq!(RunList::of(&list(&many).bytes()).unwrap_err().offset, 24);
    }
}
