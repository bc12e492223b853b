//! What stands in a drawn state.

// Not every test has a use for all.
#![allow(dead_code)]

pub mod marks;
pub mod pages;

/// Every tag is closed in order, and no stray sign stands between tags.
pub fn well_formed(text: &str) {
    let mut open = Vec::new();
    for part in text.split('<').skip(1) {
        let (tag, words) = part.split_once('>').expect("a tag that ends");
        assert!(!words.contains('>') && tag.matches('"').count() % 2 == 0, "{part}");
        let signs = words.matches('&').count();
        assert_eq!(signs, words.matches("&amp;").count() + words.matches("&lt;").count());
        let name = tag.trim_start_matches('/').split_whitespace().next().expect("a name");
        match (tag.starts_with('/'), tag.ends_with('/')) {
            (true, _) => assert_eq!(open.pop(), Some(name), "{part}"),
            (false, false) => open.push(name),
            (false, true) => {}
        }
    }
    assert!(open.is_empty() && text.starts_with("<svg ") && text.ends_with("</svg>\n"));
}

/// How many elements have a class that starts so.
pub fn count(drawn: &str, class: &str) -> usize {
    drawn.matches(&format!("class=\"{class}")).count()
}

/// Whether these words stand somewhere.
pub fn says(drawn: &str, words: &str) -> bool {
    drawn.contains(&format!(">{words}</text>"))
}

/// The number of an attribute.
pub fn number(line: &str, name: &str) -> f64 {
    let start = format!(" {name}=\"");
    let (_, rest) = line.split_once(&start).expect("the attribute");
    rest.split('"').next().and_then(|digits| digits.parse().ok()).expect("a number")
}

/// Numbers that look like any.
pub struct Numbers(pub u64);

impl Numbers {
    /// The next of them.
    pub fn next(&mut self) -> u32 {
        self.0 = self.0.wrapping_mul(6364136223846793005).wrapping_add(1442695040888963407);
        (self.0 >> 33) as u32
    }
}
