//! Checksums: CRC-32C, and the masked one of a record, of its type and its data (LevelDB, `crc32c.h`).

/// The polynomial of CRC-32C, its bits reversed.
const POLYNOMIAL: u32 = 0x82f6_3b78;
const MASK: u32 = 0xa282_ead8;

/// The number of bytes that are taken together.
const WIDTH: usize = 8;

/// The change that a byte makes that others follow, by their number.
static TABLES: [[u32; 256]; WIDTH] = tables();

const fn tables() -> [[u32; 256]; WIDTH] {
    let mut tables = [[0; 256]; WIDTH];
    let mut byte = 0;
    while byte < 256 {
        let (mut crc, mut bit) = (byte as u32, 0);
        while bit < 8 {
            crc = (crc >> 1) ^ (POLYNOMIAL * (crc & 1));
            bit += 1;
        }
        tables[0][byte] = crc;
        byte += 1;
    }
    let mut place = 1;
    while place < WIDTH {
        let mut byte = 0;
        while byte < 256 {
            let crc = tables[place - 1][byte];
            tables[place][byte] = (crc >> 8) ^ tables[0][(crc & 0xff) as usize];
            byte += 1;
        }
        place += 1;
    }
    tables
}

/// The register of a CRC with another byte.
fn with(crc: u32, byte: u8) -> u32 {
    (crc >> 8) ^ TABLES[0][usize::from(crc as u8 ^ byte)]
}

/// A CRC-32C of bytes that come piece by piece.
#[derive(Clone, Copy, Debug)]
pub(crate) struct Crc(u32);

impl Crc {
    pub(crate) fn new() -> Crc {
        Crc(u32::MAX)
    }

    /// The CRC of some bytes.
    pub(crate) fn of(bytes: &[u8]) -> u32 {
        let mut crc = Crc::new();
        crc.add(bytes);
        crc.value()
    }

    /// Adds the next bytes.
    pub(crate) fn add(&mut self, bytes: &[u8]) {
        let (words, rest) = bytes.as_chunks::<WIDTH>();
        for word in words {
            let word = u64::from_le_bytes(*word) ^ u64::from(self.0);
            let changes = (0..WIDTH).map(|place| {
                let byte = (word >> (8 * place)) as u8;
                TABLES[WIDTH - 1 - place][usize::from(byte)]
            });
            self.0 = changes.fold(0, |crc, change| crc ^ change);
        }
        self.0 = rest.iter().fold(self.0, |crc, byte| with(crc, *byte));
    }

    /// The CRC of the bytes so far.
    pub(crate) fn value(self) -> u32 {
        !self.0
    }
}

/// The checksum of the bytes that a register has seen.
fn checksum(crc: u32) -> u32 {
    (!crc).rotate_right(15).wrapping_add(MASK)
}

/// The least number of the first bytes of some data that are those of a record, by its checksum and its type.
pub(crate) fn length_by(wanted: u32, code: u8, data: &[u8]) -> Option<usize> {
    let mut crc = with(u32::MAX, code);
    if checksum(crc) == wanted {
        return Some(0);
    }
    let is_last = |byte: &u8| {
        crc = with(crc, *byte);
        checksum(crc) == wanted
    };
    data.iter().position(is_last).map(|before| before + 1)
}

#[cfg(test)]
mod tests {
    use super::*;

    #[test]
    fn the_check_value_of_crc_32c() {
        let crc = b"123456789"
            .iter()
            .fold(u32::MAX, |crc, byte| with(crc, *byte));
        assert_eq!(!crc, 0xe306_9283);
        assert_eq!(Crc::of(b"123456789"), 0xe306_9283);
        // RFC 3720, B.4.
        assert_eq!(Crc::of(&[0; 32]), 0x8a91_36aa);
        assert_eq!(Crc::of(&[0xff; 32]), 0x62a8_ab43);
    }

    #[test]
    fn a_crc_of_pieces_is_that_of_all_bytes() {
        let bytes = Vec::from_iter((0..100u32).map(|number| (number * number) as u8));
        let all = bytes.iter().fold(u32::MAX, |crc, byte| with(crc, *byte));
        for place in 0..bytes.len() {
            let mut crc = Crc::new();
            crc.add(&bytes[..place]);
            crc.add(&bytes[place..]);
            assert_eq!(crc.value(), !all);
        }
    }

    #[test]
    fn a_record_of_leveldb() {
        // CRC-32C of 32 zeros is 8a9136aa (RFC 3720); the type is the first of them here.
        let masked = 0x8a91_36aa_u32.rotate_right(15).wrapping_add(MASK);
        assert_eq!(length_by(masked, 0, &[0; 40]), Some(31));
        assert_eq!(length_by(masked, 0, &[0; 30]), None);
        assert_eq!(length_by(checksum(with(u32::MAX, 2)), 2, &[7]), Some(0));
    }
}
