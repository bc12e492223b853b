//! How names and other words from outside are printed.

use std::ffi::OsStr;

/// A name in one line: what is no UTF-8, control bytes, backslashes and quotes
/// are escaped; an empty one is two quotes.
///
/// ```
/// use plan::shown::shown;
///
/// assert_eq!(shown("a plan.txt".as_ref()), "a plan.txt");
/// assert_eq!(shown("a\n\x1b'".as_ref()), r"a\n\u{1b}\'");
/// assert_eq!(shown("".as_ref()), "''");
/// ```
pub fn shown(name: &OsStr) -> String {
    if name.is_empty() {
        return "''".into();
    }
    escaped(name.as_encoded_bytes())
}

/// A word in quotes, with the same escapes.
pub fn quoted(word: &OsStr) -> String {
    format!("'{}'", escaped(word.as_encoded_bytes()))
}

fn escaped(bytes: &[u8]) -> String {
    let chunk = |chunk: std::str::Utf8Chunk| {
        let stray: String = chunk.invalid().iter().map(|byte| format!("\\x{byte:02x}")).collect();
        chunk.valid().escape_debug().to_string() + &stray
    };
    bytes.utf8_chunks().map(chunk).collect()
}
