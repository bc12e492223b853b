//! The CRC written here once more, bit by bit: made rightly it is not told from
//! the second program, made wrongly it is.

use differ::checks::checks;
use differ::services::{Checks, Proved};

/// A CRC: what it starts from, the divisor with its bits turned round, in which
/// order a byte's bits are taken, and what is done at the end.
struct Made {
    start: u32,
    divisor: u32,
    order: fn(u8) -> u8,
    end: fn(u32) -> u32,
}

/// As IEEE 802.3 has it.
const RIGHT: Made = Made { start: !0, divisor: 0xedb8_8320, order: |byte| byte, end: |rest| !rest };

impl Checks for Made {
    fn crc32(&self, bytes: &[u8]) -> u32 {
        let step = |rest: u32, bit: u32| {
            let rest = rest ^ bit;
            (rest >> 1) ^ (self.divisor * (rest & 1))
        };
        let bits = |byte: &u8| {
            let byte = (self.order)(*byte);
            (0..8).map(move |bit| u32::from(byte >> bit & 1))
        };
        (self.end)(bytes.iter().flat_map(bits).fold(self.start, step))
    }
}

/// The standard's own list of bytes, and no bytes.
fn cases(by: &dyn Checks) -> [u32; 2] {
    [by.crc32(b"123456789"), by.crc32(b"")]
}

const CASES: [u32; 2] = [0xcbf4_3926, 0];

#[test]
fn made_rightly() {
    assert_eq!(cases(&Proved), CASES);
    assert_eq!(cases(&RIGHT), CASES);
    assert_eq!(checks(&RIGHT, 0), Ok(()));
}

/// A wrong one differs in a case, and the differential run finds it.
fn told_apart(name: &str, by: Made) {
    let found = checks(&by, 0).err();
    println!("{name}: {}", found.as_deref().unwrap_or("NOT FOUND"));
    assert!(found.is_some() && cases(&by) != CASES, "{name}");
}

#[test]
fn made_wrongly() {
    told_apart("starts from zero", Made { start: 0, ..RIGHT });
    told_apart("does not invert the end", Made { end: |rest| rest, ..RIGHT });
    told_apart("inverts nothing", Made { start: 0, end: |rest| rest, ..RIGHT });
    told_apart("takes the high bit first", Made { order: u8::reverse_bits, ..RIGHT });
    told_apart("turns the end round", Made { end: |rest| !rest.reverse_bits(), ..RIGHT });
    told_apart("gives big-endian bytes", Made { end: |rest| !rest.swap_bytes(), ..RIGHT });
    told_apart("has Castagnoli's divisor", Made { divisor: 0x82f6_3b78, ..RIGHT });
    told_apart("does not turn the divisor round", Made { divisor: 0x04c1_1db7, ..RIGHT });
}
