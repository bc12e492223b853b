//! The printed vectors: published messages and keys with their digests and
//! MACs, worked out here.
//!
//! - A vector is its name on a line, then its parts; the last is `result`.
//!   Digests have the part `input` (the one by compress: `block`), HMACs have
//!   `key` and then `text`.
//! - A part is two blanks, its name and a colon on a line; then its words,
//!   eight to a line, the rest on the last line. A line of words is four
//!   blanks and the words with one blank between, each as eight lowercase
//!   hexadecimal digits. A part of no words is its first line alone.
//! - The million letters are one line, `    61616161 250000 times`.
//! - Every line ends in one newline; there are no blank lines.

use crate::sha::{compress, digest, hmac, words, Hash, START};

const MESSAGE_448: &[u8] = b"abcdbcdecdefdefgefghfghighijhijkijkljklmklmnlmnomnopnopq";
const MESSAGE_896: &[u8] = b"abcdefghbcdefghicdefghijdefghijkefghijklfghijklmghijklmn\
                              hijklmnoijklmnopjklmnopqklmnopqrlmnopqrsmnopqrstnopqrstu";

/// The whole text.
pub fn text() -> String {
    let key: Vec<u8> = (0x00..0x20).collect();
    let long: Vec<u8> = (0x40..0x80).collect();
    [
        of_message("empty message", b""),
        of_block(),
        of_message("448-bit message", MESSAGE_448),
        of_message("896-bit message", MESSAGE_896),
        of_a_million(),
        of_key("RFC 4231 case 1", &[0x0b; 20], b"Hi There"),
        of_key("RFC 4231 case 2", b"Jefe", b"what do ya want for nothing?"),
        of_key("key 00 to 1f text 40 to 7f", &key, &long),
    ]
    .concat()
}

fn of_message(name: &str, message: &[u8]) -> String {
    format!("SHA-256 {name}\n{}{}", part("input", &words(message)), result(digest(message)))
}

/// "abc", padded by hand into its one block.
fn of_block() -> String {
    let mut block = [0; 16];
    block[0] = 0x6162_6380;
    block[15] = 24;
    let hash = compress(START, &block);
    format!("SHA-256 abc by compress\n{}{}", part("block", &block), result(hash))
}

fn of_a_million() -> String {
    let hash = digest(&[b'a'; 1_000_000]);
    let input = "  input:\n    61616161 250000 times\n";
    format!("SHA-256 million letters a\n{input}{}", result(hash))
}

fn of_key(name: &str, key: &[u8], text: &[u8]) -> String {
    let parts = [part("key", &words(key)), part("text", &words(text)), result(hmac(key, text))];
    format!("HMAC-SHA-256 {name}\n{}", parts.concat())
}

fn result(hash: Hash) -> String {
    part("result", &hash)
}

fn part(name: &str, words: &[u32]) -> String {
    let mut text = format!("  {name}:\n");
    for line in words.chunks(8) {
        let line: Vec<String> = line.iter().map(|word| format!("{word:08x}")).collect();
        text += &format!("    {}\n", line.join(" "));
    }
    text
}
