//! Numbers in words, and how wide words are.

/// A number with commas between thousands.
pub fn grouped(number: usize) -> String {
    match number {
        0..=999 => number.to_string(),
        _ => format!("{},{:03}", grouped(number / 1000), number % 1000),
    }
}

/// So many numbers from this one on, as `pages 6-13` or `page 6`.
pub fn span(one: &str, first: u32, count: u32) -> String {
    match count {
        1 => format!("{one} {first}"),
        0 => format!("no {one}"),
        _ => format!("{one}s {first}-{}", u64::from(first) + u64::from(count) - 1),
    }
}

/// So many frames from this one on, in words.
pub fn frames(first: u32, count: u32) -> String {
    span("frame", first, count)
}

/// Columns of small words on a card of this width.
pub fn columns(width: u32) -> usize {
    ((width - 16) * 3 / 20) as usize
}

/// How wide these words are, a little generously.
pub fn words_width(words: &str) -> u32 {
    words.chars().count() as u32 * 15 / 2
}
