//! Published vectors for SHA-256 and HMAC-SHA256, and the measuring steps
//! against whole messages.

use second::sha::{add, bytes, digest, finish, hmac, mac, words, START};

fn hex(hash: [u32; 8]) -> String {
    hash.iter().map(|word| format!("{word:08x}")).collect()
}

#[test]
fn sha_of_the_published_messages() {
    let long = b"abcdefghbcdefghicdefghijdefghijkefghijklfghijklmghijklmn\
                       hijklmnoijklmnopjklmnopqklmnopqrlmnopqrsmnopqrstnopqrstu";
    let cases: [(&[u8], &str); 4] = [
        (b"", "e3b0c44298fc1c149afbf4c8996fb92427ae41e4649b934ca495991b7852b855"),
        (b"abc", "ba7816bf8f01cfea414140de5dae2223b00361a396177a9cb410ff61f20015ad"),
        (
            b"abcdbcdecdefdefgefghfghighijhijkijkljklmklmnlmnomnopnopq",
            "248d6a61d20638b8e5c026930c3e6039a33ce45964ff2167f6ecedd419db06c1",
        ),
        (long, "cf5b16a778af8380036ce59e7b0492370b249b11e8f07a51afac45037afee9d1"),
    ];
    assert_eq!(cases[2].0.len() * 8, 448);
    assert_eq!(cases[3].0.len() * 8, 896);
    for (message, expected) in cases {
        assert_eq!(hex(digest(message)), expected);
    }
}

#[test]
fn sha_of_a_million_letters() {
    let message = vec![b'a'; 1_000_000];
    let expected = "cdc76e5c9914fb9281a1c7e284d73e67f1809a48a497200e046d39ccc7112cd0";
    assert_eq!(hex(digest(&message)), expected);
}

#[test]
fn hmac_of_the_published_cases() {
    let first = hmac(&[0x0b; 20], b"Hi There");
    assert_eq!(hex(first), "b0344c61d8db38535ca8afceaf0bf12b881dc200c9833da726e9376c2e32cff7");
    let second = hmac(b"Jefe", b"what do ya want for nothing?");
    assert_eq!(hex(second), "5bdcc146bf60754e6a042426089575c75a003f089d2739839dec58b964ec3843");
    // Case 6: a key longer than a block is hashed first.
    let sixth = hmac(&[0xaa; 131], b"Test Using Larger Than Block-Size Key - Hash Key First");
    assert_eq!(hex(sixth), "60e431591ee0b67f0d8a26aacbf5b77f8e0bc6213728c5140546040f0ee37f54");
}

/// The shape of an attestation: a key of 32 bytes over a text of 64. The
/// expected MAC was computed by another implementation.
#[test]
fn hmac_of_an_attestation() {
    let key: Vec<u8> = (0x00..0x20).collect();
    let text: Vec<u8> = (0x40..0x80).collect();
    let expected = "a41e350df9a042fb8a944cee3b2087b1e40b545593a7b1c0e28b2743c1578132";
    assert_eq!(hex(hmac(&key, &text)), expected);
    let key: [u32; 8] = words(&key).try_into().unwrap();
    assert_eq!(hex(mac(&key, &words(&text[..32]), &words(&text[32..]))), expected);
}

/// Adding block by block and finishing is hashing the whole message.
#[test]
fn finishing_is_hashing_the_whole() {
    let message: Vec<u32> = (0..16 * 67).map(|i: u32| i.wrapping_mul(0x9e37_79b9)).collect();
    for blocks in [0, 1, 2, 65, 66, 67] {
        let part = &message[..16 * blocks];
        assert_eq!(finish(add(START, part), blocks as u32), digest(&bytes(part)));
    }
}
