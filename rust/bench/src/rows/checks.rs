//! CRC-32 of what a block's check covers.

use super::Row;
use crate::meter::{Meter, Side};
use crate::plain;
use second::layout::CHECKED_BYTES;
use std::hint::black_box;

struct Checking {
    check: u32,
    body: Vec<u8>,
    crc32: fn(&[u8]) -> u32,
}

impl Side for Checking {
    fn run(&mut self) {
        self.check = (self.crc32)(black_box(&self.body));
    }
}

fn checking(crc32: fn(&[u8]) -> u32) -> Checking {
    let byte = |place: u32| (place.wrapping_mul(0x9e37_79b9) >> 24) as u8;
    let body = (0..CHECKED_BYTES as u32).map(byte).collect();
    Checking { check: 0, body, crc32 }
}

/// Beside a plain loop.
pub fn row(meter: &Meter) -> Row {
    let (mut ours, mut plain) = (checking(crc::crc32), checking(plain::crc::crc32));
    let costs = meter.measure(&mut [&mut ours, &mut plain]);
    assert_eq!(ours.check, plain.check, "both sides do the same");
    let name = "CRC-32 of a block".into();
    Row { name, ours: costs[0], plain: costs[1], folded: None, paper: "" }
}
