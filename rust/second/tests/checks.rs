//! CRC-32 of published and of plain byte lists. All but the first were worked
//! out by another program.

use second::crc::crc32;

#[test]
fn of_known_bytes() {
    let counted: Vec<u8> = (0..508).map(|byte| byte as u8).collect();
    let cases: [(&[u8], u32); 13] = [
        (b"123456789", 0xcbf4_3926),
        (b"", 0),
        (&[0], 0xd202_ef8d),
        (&[0x01], 0xa505_df1b),
        (&[0x80], 0x3fba_6cad),
        (b"a", 0xe8b7_be43),
        (b"abc", 0x3524_41c2),
        (&[0; 4], 0x2144_df1c),
        (&[0xff; 4], 0xffff_ffff),
        (b"The quick brown fox jumps over the lazy dog", 0x414f_a339),
        (&[0; 508], 0x0fbb_6d54),
        (&[0xff; 508], 0x4d3f_5134),
        (&counted, 0x49f1_a5ee),
    ];
    for (bytes, check) in cases {
        assert_eq!(crc32(bytes), check, "{bytes:02x?}");
    }
}

/// Bit by bit, the low bit of each byte first, with the divisor's bits turned
/// round.
fn bit_by_bit(bytes: &[u8]) -> u32 {
    let step = |rest: u32, bit: u32| ((rest ^ bit) >> 1) ^ (0xedb8_8320 * ((rest ^ bit) & 1));
    let bits = bytes.iter().flat_map(|byte| (0..8).map(move |bit| u32::from(byte >> bit & 1)));
    !bits.fold(!0, step)
}

#[test]
fn of_every_length() {
    let bytes: Vec<u8> = (0..600u32).map(|byte| (byte * byte * 7 + byte / 3) as u8).collect();
    for length in 0..bytes.len() {
        assert_eq!(crc32(&bytes[..length]), bit_by_bit(&bytes[..length]), "{length}");
    }
}

/// Two lists that differ in one bit have two checks.
#[test]
fn of_one_bit() {
    let bytes = [0x5a; 508];
    for bit in 0..8 * bytes.len() {
        let mut other = bytes;
        other[bit / 8] ^= 1 << (bit % 8);
        assert_ne!(crc32(&other), crc32(&bytes), "{bit}");
    }
}
