//! SHA-256 and HMAC on words, as one would write them plainly.

use second::layout::{BLOCK_WORDS, HASH_WORDS};
pub use second::sha::Hash;

/// The hash before any block.
pub const START: Hash = [
    0x6a09e667, 0xbb67ae85, 0x3c6ef372, 0xa54ff53a, 0x510e527f, 0x9b05688c, 0x1f83d9ab, 0x5be0cd19,
];

const K: [u32; 64] = [
    0x428a2f98, 0x71374491, 0xb5c0fbcf, 0xe9b5dba5, 0x3956c25b, 0x59f111f1, 0x923f82a4, 0xab1c5ed5,
    0xd807aa98, 0x12835b01, 0x243185be, 0x550c7dc3, 0x72be5d74, 0x80deb1fe, 0x9bdc06a7, 0xc19bf174,
    0xe49b69c1, 0xefbe4786, 0x0fc19dc6, 0x240ca1cc, 0x2de92c6f, 0x4a7484aa, 0x5cb0a9dc, 0x76f988da,
    0x983e5152, 0xa831c66d, 0xb00327c8, 0xbf597fc7, 0xc6e00bf3, 0xd5a79147, 0x06ca6351, 0x14292967,
    0x27b70a85, 0x2e1b2138, 0x4d2c6dfc, 0x53380d13, 0x650a7354, 0x766a0abb, 0x81c2c92e, 0x92722c85,
    0xa2bfe8a1, 0xa81a664b, 0xc24b8b70, 0xc76c51a3, 0xd192e819, 0xd6990624, 0xf40e3585, 0x106aa070,
    0x19a4c116, 0x1e376c08, 0x2748774c, 0x34b0bcb5, 0x391c0cb3, 0x4ed8aa4a, 0x5b9cca4f, 0x682e6ff3,
    0x748f82ee, 0x78a5636f, 0x84c87814, 0x8cc70208, 0x90befffa, 0xa4506ceb, 0xbef9a3f7, 0xc67178f2,
];

/// One block of 16 words goes into the hash.
pub fn compress(hash: &mut Hash, block: &[u32]) {
    let mut w = [0u32; 64];
    w[..BLOCK_WORDS].copy_from_slice(block);
    for t in BLOCK_WORDS..64 {
        let (x, y) = (w[t - 15], w[t - 2]);
        let s0 = x.rotate_right(7) ^ x.rotate_right(18) ^ (x >> 3);
        let s1 = y.rotate_right(17) ^ y.rotate_right(19) ^ (y >> 10);
        w[t] = w[t - 16].wrapping_add(s0).wrapping_add(w[t - 7]).wrapping_add(s1);
    }
    let [mut a, mut b, mut c, mut d, mut e, mut f, mut g, mut h] = *hash;
    for t in 0..64 {
        let s1 = e.rotate_right(6) ^ e.rotate_right(11) ^ e.rotate_right(25);
        let t1 = h
            .wrapping_add(s1)
            .wrapping_add((e & f) ^ (!e & g))
            .wrapping_add(K[t])
            .wrapping_add(w[t]);
        let s0 = a.rotate_right(2) ^ a.rotate_right(13) ^ a.rotate_right(22);
        let t2 = s0.wrapping_add((a & b) ^ (a & c) ^ (b & c));
        (h, g, f, e) = (g, f, e, d.wrapping_add(t1));
        (d, c, b, a) = (c, b, a, t1.wrapping_add(t2));
    }
    for (word, new) in hash.iter_mut().zip([a, b, c, d, e, f, g, h]) {
        *word = word.wrapping_add(new);
    }
}

/// Whole blocks go into the hash.
pub fn absorb(hash: &mut Hash, words: &[u32]) {
    for block in words.chunks_exact(BLOCK_WORDS) {
        compress(hash, block);
    }
}

/// A last block: these words, a one bit, zeros, and the message's bits.
fn close(hash: &mut Hash, words: &[u32], bits: u32) {
    let mut block = [0; BLOCK_WORDS];
    block[..words.len()].copy_from_slice(words);
    block[words.len()] = 0x8000_0000;
    block[15] = bits;
    compress(hash, &block);
}

/// HMAC by a key of 8 words over two times 8 words.
pub fn mac(key: &[u32], measurement: &[u32], data: &[u32]) -> Hash {
    let (mut inner, mut outer) = ([0x3636_3636; BLOCK_WORDS], [0x5c5c_5c5c; BLOCK_WORDS]);
    for (place, word) in key.iter().enumerate() {
        inner[place] ^= word;
        outer[place] ^= word;
    }
    let mut text = [0; BLOCK_WORDS];
    text[..HASH_WORDS].copy_from_slice(measurement);
    text[HASH_WORDS..].copy_from_slice(data);
    let mut hash = START;
    compress(&mut hash, &inner);
    compress(&mut hash, &text);
    close(&mut hash, &[], 1024);
    let mut mac = START;
    compress(&mut mac, &outer);
    close(&mut mac, &hash, 768);
    mac
}
