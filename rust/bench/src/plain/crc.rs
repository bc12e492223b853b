//! CRC-32 of IEEE 802.3, byte by byte over one table, as one would write it
//! plainly.

/// The polynomial, its low bit first.
const POLYNOMIAL: u32 = 0xedb8_8320;

/// What each byte leaves.
static TABLE: [u32; 256] = table();

const fn table() -> [u32; 256] {
    let mut table = [0; 256];
    let mut byte = 0;
    while byte < table.len() {
        let mut rest = byte as u32;
        let mut bit = 0;
        while bit < 8 {
            rest = if rest & 1 == 0 { rest >> 1 } else { (rest >> 1) ^ POLYNOMIAL };
            bit += 1;
        }
        table[byte] = rest;
        byte += 1;
    }
    table
}

/// The CRC-32 of these bytes.
pub fn crc32(bytes: &[u8]) -> u32 {
    !bytes.iter().fold(!0, |rest, byte| (rest >> 8) ^ TABLE[usize::from(rest as u8 ^ byte)])
}
