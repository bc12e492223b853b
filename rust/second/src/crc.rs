//! CRC-32 of IEEE 802.3: the remainder of a long division of polynomials
//! over bits, the highest power first. The standard takes the low bit of
//! each byte first, inverts the first 32 bits and inverts the remainder.

/// The divisor, its power 32 left out.
const DIVISOR: u32 = 0x04c1_1db7;

/// What each byte leaves when it is divided with 32 zeros behind it.
const LEFT: [u32; 256] = {
    let mut left = [0; 256];
    let mut byte = 0;
    while byte < left.len() {
        left[byte] = divided((byte as u32) << 24);
        byte += 1;
    }
    left
};

/// Eight steps of the division.
const fn divided(mut rest: u32) -> u32 {
    let mut step = 0;
    while step < 8 {
        let high = rest >> 31;
        rest = (rest << 1) ^ (DIVISOR * high);
        step += 1;
    }
    rest
}

/// The CRC-32 of these bytes.
pub fn crc32(bytes: &[u8]) -> u32 {
    let step = |rest: u32, byte: &u8| {
        let taken = (rest >> 24) as u8 ^ byte.reverse_bits();
        (rest << 8) ^ LEFT[usize::from(taken)]
    };
    !bytes.iter().fold(u32::MAX, step).reverse_bits()
}
