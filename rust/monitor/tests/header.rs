//! The C headers have the same names, numbers, texts and version.

use monitor::{code, layout, Answer, BadImage, Call, Mapping, Refusal, Unfit};

const HEADER: &str = concat!(
    include_str!("../../../include/monitor.h"),
    include_str!("../../../include/monitor_helpers.h")
);

/// Whether a line of the header, leading blanks aside, is this.
fn has(wanted: &str) -> bool {
    HEADER.lines().any(|line| line.trim_start() == wanted)
}

/// Whether the header gives this name this number.
fn defines(name: &str, number: usize) -> bool {
    let mut lines = HEADER.lines().map(|line| line.trim_start().trim_start_matches("MONITOR_"));
    lines.any(|line| {
        let (found, rest) = line.split_once(" = ").unwrap_or_default();
        let digits = rest.split(|letter: char| !letter.is_ascii_digit()).next();
        found == name && digits == Some(&number.to_string())
    })
}

/// `MapSecure { .. }` as `MAP_SECURE`.
fn in_capitals(shown: &str) -> String {
    let mut name = String::new();
    for letter in shown.chars().take_while(char::is_ascii_alphanumeric) {
        if letter.is_ascii_uppercase() && !name.is_empty() {
            name.push('_');
        }
        name.push(letter.to_ascii_uppercase());
    }
    name
}

/// The header names this number as Rust does, and has this text for it.
fn agrees(shown: &dyn std::fmt::Debug, number: u32, text: &str) {
    let name = in_capitals(&format!("{shown:?}"));
    assert!(defines(&name, number as usize), "MONITOR_{name} = {number}");
    let case = format!("case MONITOR_{name}: return \"{text}\";");
    assert!(has(&case), "{case}");
}

#[test]
fn calls() {
    for number in Call::NUMBERS {
        let mut record = [0; layout::RECORD_WORDS];
        record[0] = *number;
        let call = Call::decode(&record).expect("a call");
        agrees(&call, *number, call.name());
    }
}

#[test]
fn codes() {
    for refusal in Refusal::ALL {
        agrees(&refusal, refusal.code(), &refusal.to_string());
    }
    for answer in [Answer::Done, Answer::Interrupted, Answer::Faulted] {
        agrees(&answer, answer.code(), &answer.to_string());
    }
    agrees(&format_args!("Unfit"), code::UNFIT, Unfit::IN_WORDS);
    agrees(&format_args!("BadBlock"), code::BAD_BLOCK, BadImage::BLOCK_IN_WORDS);
    agrees(&BadImage::NotAccepted, code::NOT_ACCEPTED, BadImage::ACCEPTANCE_IN_WORDS);
}

#[test]
fn version() {
    let version = env!("CARGO_PKG_VERSION");
    assert!(has(&format!("#define MONITOR_VERSION \"{version}\"")), "{version}");
    for (part, number) in ["MAJOR", "MINOR", "PATCH"].into_iter().zip(version.split('.')) {
        assert!(has(&format!("#define MONITOR_VERSION_{part} {number}")), "{part} {number}");
    }
}

#[test]
fn rights() {
    let read = Mapping::new(0, 0).expect("in range");
    for (name, with) in [("WRITE", read.writable()), ("EXECUTE", read.executable())] {
        assert!(defines(name, (with.word() - read.word()) as usize), "{name}");
    }
    assert!(defines("READ", read.word() as usize));
}

#[test]
fn lengths() {
    for (name, number) in [
        ("MOST_FRAMES", layout::MOST_FRAMES as usize),
        ("MOST_PAGES", layout::MOST_PAGES as usize),
        ("MOST_TABLES", layout::MOST_TABLES as usize),
        ("FRAME_WORDS", layout::FRAME_WORDS),
        ("HEADER_WORDS", layout::HEADER_WORDS),
        ("RECORD_WORDS", layout::RECORD_WORDS),
        ("KEY_WORDS", layout::KEY_WORDS),
        ("MOST_CALLS", layout::MOST_CALLS),
        ("BLOCK_BYTES", layout::BLOCK_BYTES),
        ("PAYLOAD_WORDS", layout::PAYLOAD_WORDS),
        ("PROGRESS_WORDS", layout::PROGRESS_WORDS),
        ("PROGRESS_ANSWER", layout::progress::ANSWER),
        ("PROGRESS_CAME", layout::progress::CAME),
        ("PROGRESS_NUMBER", layout::progress::NUMBER),
    ] {
        assert!(defines(name, number), "{name}");
    }
}

/// As many names and texts as are tried above, so that none is there in vain.
#[test]
fn no_more_names() {
    let count =
        |start: &str| HEADER.lines().filter(|line| line.trim_start().starts_with(start)).count();
    let names = HEADER.lines().filter(|line| line.trim_start().starts_with("MONITOR_"));
    let texts = Call::NUMBERS.len() + Refusal::ALL.len() + 6;
    assert_eq!(names.filter(|line| line.contains(" = ")).count(), texts + 14 + 3);
    assert_eq!(count("case "), texts);
    assert_eq!(count("#define MONITOR_VERSION"), 4);
}
