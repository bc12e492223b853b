//! SHA-256 (FIPS 180-4) and HMAC-SHA256 (FIPS 198-1), on big-endian words.

use crate::layout::{BLOCK_WORDS, HASH_WORDS};

/// The running hash, a digest or a MAC.
pub type Hash = [u32; HASH_WORDS];

/// The starting hash.
pub const START: Hash = [
    0x6a09e667, 0xbb67ae85, 0x3c6ef372, 0xa54ff53a, 0x510e527f, 0x9b05688c, 0x1f83d9ab, 0x5be0cd19,
];

/// The constants of the 64 rounds.
pub const ROUND: [u32; 64] = [
    0x428a2f98, 0x71374491, 0xb5c0fbcf, 0xe9b5dba5, 0x3956c25b, 0x59f111f1, 0x923f82a4, 0xab1c5ed5,
    0xd807aa98, 0x12835b01, 0x243185be, 0x550c7dc3, 0x72be5d74, 0x80deb1fe, 0x9bdc06a7, 0xc19bf174,
    0xe49b69c1, 0xefbe4786, 0x0fc19dc6, 0x240ca1cc, 0x2de92c6f, 0x4a7484aa, 0x5cb0a9dc, 0x76f988da,
    0x983e5152, 0xa831c66d, 0xb00327c8, 0xbf597fc7, 0xc6e00bf3, 0xd5a79147, 0x06ca6351, 0x14292967,
    0x27b70a85, 0x2e1b2138, 0x4d2c6dfc, 0x53380d13, 0x650a7354, 0x766a0abb, 0x81c2c92e, 0x92722c85,
    0xa2bfe8a1, 0xa81a664b, 0xc24b8b70, 0xc76c51a3, 0xd192e819, 0xd6990624, 0xf40e3585, 0x106aa070,
    0x19a4c116, 0x1e376c08, 0x2748774c, 0x34b0bcb5, 0x391c0cb3, 0x4ed8aa4a, 0x5b9cca4f, 0x682e6ff3,
    0x748f82ee, 0x78a5636f, 0x84c87814, 0x8cc70208, 0x90befffa, 0xa4506ceb, 0xbef9a3f7, 0xc67178f2,
];

/// The message schedule of one block.
fn schedule(block: &[u32]) -> [u32; 64] {
    let mut w = [0; 64];
    w[..BLOCK_WORDS].copy_from_slice(block);
    for t in BLOCK_WORDS..64 {
        let (x, y) = (w[t - 15], w[t - 2]);
        let small0 = x.rotate_right(7) ^ x.rotate_right(18) ^ x >> 3;
        let small1 = y.rotate_right(17) ^ y.rotate_right(19) ^ y >> 10;
        w[t] = small1.wrapping_add(w[t - 7]).wrapping_add(small0).wrapping_add(w[t - 16]);
    }
    w
}

/// One round: the new working variables from the old ones.
pub fn round([a, b, c, d, e, f, g, h]: Hash, constant: u32, word: u32) -> Hash {
    let big1 = e.rotate_right(6) ^ e.rotate_right(11) ^ e.rotate_right(25);
    let choose = e & f ^ !e & g;
    let first = h.wrapping_add(big1).wrapping_add(choose).wrapping_add(constant).wrapping_add(word);
    let big0 = a.rotate_right(2) ^ a.rotate_right(13) ^ a.rotate_right(22);
    let majority = a & b ^ a & c ^ b & c;
    let second = big0.wrapping_add(majority);
    [first.wrapping_add(second), a, b, c, d.wrapping_add(first), e, f, g]
}

/// The hash with one block of 16 words added.
pub fn compress(hash: Hash, block: &[u32]) -> Hash {
    let words = schedule(block);
    let mut work = hash;
    for (constant, word) in ROUND.into_iter().zip(words) {
        work = round(work, constant, word);
    }
    std::array::from_fn(|i| hash[i].wrapping_add(work[i]))
}

/// The hash with whole blocks added.
pub fn add(hash: Hash, words: &[u32]) -> Hash {
    words.chunks_exact(BLOCK_WORDS).fold(hash, compress)
}

/// The digest of a message of `blocks` whole blocks whose running hash is
/// `hash`: a block of padding alone.
pub fn finish(hash: Hash, blocks: u32) -> Hash {
    let bits = u64::from(blocks) * 512;
    let mut padding = [0; BLOCK_WORDS];
    padding[0] = 0x8000_0000;
    padding[14] = (bits >> 32) as u32;
    padding[15] = bits as u32;
    compress(hash, &padding)
}

/// Bytes as big-endian words; the length is a multiple of 4.
pub fn words(bytes: &[u8]) -> Vec<u32> {
    let word = |b: &[u8]| u32::from_be_bytes([b[0], b[1], b[2], b[3]]);
    bytes.chunks_exact(4).map(word).collect()
}

/// Words as big-endian bytes.
pub fn bytes(words: &[u32]) -> Vec<u8> {
    words.iter().flat_map(|word| word.to_be_bytes()).collect()
}

/// SHA-256 of any bytes.
pub fn digest(message: &[u8]) -> Hash {
    let mut padded = message.to_vec();
    padded.push(0x80);
    while padded.len() % 64 != 56 {
        padded.push(0);
    }
    padded.extend((message.len() as u64 * 8).to_be_bytes());
    add(START, &words(&padded))
}

/// HMAC-SHA256 of any key and any text.
pub fn hmac(key: &[u8], text: &[u8]) -> Hash {
    let mut block = if key.len() > 64 { bytes(&digest(key)) } else { key.to_vec() };
    block.resize(64, 0);
    let keyed = |pad: u8, rest: &[u8]| {
        let head = block.iter().map(|byte| byte ^ pad);
        digest(&head.chain(rest.iter().copied()).collect::<Vec<u8>>())
    };
    keyed(0x5c, &bytes(&keyed(0x36, text)))
}

/// The MAC of an attestation: by the key over measurement, then data.
pub fn mac(key: &Hash, measurement: &[u32], data: &[u32]) -> Hash {
    let text = [bytes(measurement), bytes(data)].concat();
    hmac(&bytes(key), &text)
}
