//! The proved SHA-256 and HMAC of crate `sha256`, from the static library
//! that `.ci/library sha256_host` writes. All is in words of 32 bits, taken
//! big-endian.
//!
//! ```
//! let abc = [0x6162_6380, 0, 0, 0, 0, 0, 0, 0, 0, 0, 0, 0, 0, 0, 0, 24];
//! assert_eq!(hash::absorb(hash::START, &abc).unwrap()[0], 0xba78_16bf);
//! assert_eq!(hash::absorb(hash::START, &abc[1..]), None);
//! ```

/// A running hash, a digest or a MAC.
pub type Hash = [u32; 8];

/// The hash of no blocks.
pub const START: Hash = [
    0x6a09e667, 0xbb67ae85, 0x3c6ef372, 0xa54ff53a, 0x510e527f, 0x9b05688c, 0x1f83d9ab, 0x5be0cd19,
];

/// A slice is a pointer and a count of words; what is written and what is
/// read never overlap.
mod c {
    extern "C" {
        pub fn sha256_absorb(state: *mut u32, of: usize, words: *const u32, many: usize) -> bool;
        pub fn sha256_digest(words: *const u32, many: usize, out: *mut u32, of: usize) -> bool;
        pub fn sha256_hmac(
            key: *const u32,
            key_words: usize,
            text: *const u32,
            many: usize,
            out: *mut u32,
            of: usize,
        ) -> bool;
    }
}

/// The hash with these words added, if they are whole blocks of 16.
pub fn absorb(mut hash: Hash, words: &[u32]) -> Option<Hash> {
    // SAFETY: pointers and lengths are those of live slices, one of them our own.
    let fits = unsafe { c::sha256_absorb(hash.as_mut_ptr(), 8, words.as_ptr(), words.len()) };
    fits.then_some(hash)
}

/// SHA-256 of these words.
pub fn digest(words: &[u32]) -> Hash {
    let mut hash = [0; 8];
    // SAFETY: as for `absorb`.
    let fits = unsafe { c::sha256_digest(words.as_ptr(), words.len(), hash.as_mut_ptr(), 8) };
    debug_assert!(fits);
    hash
}

/// HMAC-SHA256 of these words by a key of at most 16 words.
pub fn hmac(key: &[u32], text: &[u32]) -> Option<Hash> {
    let mut hash = [0; 8];
    let (key_words, many, out) = (key.len(), text.len(), hash.as_mut_ptr());
    // SAFETY: as for `absorb`.
    let fits = unsafe { c::sha256_hmac(key.as_ptr(), key_words, text.as_ptr(), many, out, 8) };
    fits.then_some(hash)
}
