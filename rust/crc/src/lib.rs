//! The proved CRC-32 of IEEE 802.3, from the static library that
//! `.ci/library crc32_host` writes.
//!
//! ```
//! assert_eq!(crc::crc32(b"123456789"), 0xcbf4_3926);
//! assert_eq!(crc::crc32(b""), 0);
//! ```

/// A slice is a pointer and a count of bytes.
mod c {
    extern "C" {
        pub fn crc32_of(bytes: *const u8, many: usize) -> u32;
    }
}

/// The CRC-32 of these bytes.
pub fn crc32(bytes: &[u8]) -> u32 {
    // SAFETY: pointer and length are those of a live slice.
    unsafe { c::crc32_of(bytes.as_ptr(), bytes.len()) }
}
