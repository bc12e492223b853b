//! Decimal numbers as text.

use types::layout::RECORD_WORDS;

/// The numbers of a record as a complaint counts them.
pub const ORDINALS: [&str; RECORD_WORDS] = [
    "first",
    "second",
    "third",
    "fourth",
    "fifth",
    "sixth",
    "seventh",
    "eighth",
    "ninth",
    "tenth",
    "eleventh",
    "twelfth",
    "thirteenth",
    "fourteenth",
    "fifteenth",
    "sixteenth",
    "seventeenth",
    "eighteenth",
    "nineteenth",
    "twentieth",
    "twenty-first",
    "twenty-second",
    "twenty-third",
    "twenty-fourth",
    "twenty-fifth",
    "twenty-sixth",
    "twenty-seventh",
    "twenty-eighth",
    "twenty-ninth",
    "thirtieth",
    "thirty-first",
    "thirty-second",
];

/// The value of decimal digits, if they are and a word can hold it.
///
/// ```
/// use plan::decimal::value;
///
/// assert_eq!(value(b"0042"), Some(42));
/// assert_eq!([&b"4294967296"[..], b"+1", b""].map(value), [None; 3]);
/// ```
pub fn value(digits: &[u8]) -> Option<u32> {
    let digit = |byte: &u8| byte.is_ascii_digit().then(|| u32::from(byte - b'0'));
    let further = |value: u32, byte| value.checked_mul(10)?.checked_add(digit(byte)?);
    (!digits.is_empty()).then(|| digits.iter().try_fold(0, further)).flatten()
}
