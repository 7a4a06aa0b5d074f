//! CRC-32C by slicing by 8, for the programs in plain Rust: tables that the compiler makes.

const POLYNOMIAL: u32 = 0x82f6_3b78;

/// A row for each number of zero bytes after a byte, and in it an entry for each byte.
static TABLES: [[u32; 256]; 8] = tables();

const fn tables() -> [[u32; 256]; 8] {
    let mut tables = [[0; 256]; 8];
    let mut byte = 0;
    while byte < 256 {
        let mut register = byte as u32;
        let mut bit = 0;
        while bit < 8 {
            register = (register >> 1) ^ (POLYNOMIAL & (register & 1).wrapping_neg());
            bit += 1;
        }
        tables[0][byte] = register;
        byte += 1;
    }
    let mut behind = 1;
    while behind < 8 {
        let mut byte = 0;
        while byte < 256 {
            let register = tables[behind - 1][byte];
            tables[behind][byte] = tables[0][(register & 0xff) as usize] ^ (register >> 8);
            byte += 1;
        }
        behind += 1;
    }
    tables
}

/// The register after bytes, without the inversions at the start and the end. The four look-ups that wait
/// for the word before stand last in the sum: the other way round it takes a fifth to a third longer.
pub fn update(mut register: u32, bytes: &[u8]) -> u32 {
    let (words, rest) = bytes.as_chunks::<8>();
    for word in words {
        let word = u64::from_le_bytes(*word) ^ u64::from(register);
        register = TABLES[0][(word >> 56) as usize]
            ^ TABLES[1][(word >> 48 & 0xff) as usize]
            ^ TABLES[2][(word >> 40 & 0xff) as usize]
            ^ TABLES[3][(word >> 32 & 0xff) as usize]
            ^ TABLES[4][(word >> 24 & 0xff) as usize]
            ^ TABLES[5][(word >> 16 & 0xff) as usize]
            ^ TABLES[6][(word >> 8 & 0xff) as usize]
            ^ TABLES[7][(word & 0xff) as usize];
    }
    for byte in rest {
        register = TABLES[0][((register & 0xff) as u8 ^ byte) as usize] ^ (register >> 8);
    }
    register
}
