//! The text in pieces: numbers, names, signs.

use std::ffi::OsStr;
use std::fmt;
use std::os::unix::ffi::OsStrExt;

/// A line and a column, both from 1; a column is a byte.
#[derive(Clone, Copy, Debug, PartialEq, Eq)]
pub struct Place {
    /// The line.
    pub line: usize,
    /// The column.
    pub column: usize,
}

impl fmt::Display for Place {
    fn fmt(&self, out: &mut fmt::Formatter) -> fmt::Result {
        write!(out, "{}:{}", self.line, self.column)
    }
}

/// What is wrong with the text, and where.
#[derive(Debug)]
pub struct Fault {
    pub place: Place,
    pub what: String,
}

impl fmt::Display for Fault {
    fn fmt(&self, out: &mut fmt::Formatter) -> fmt::Result {
        write!(out, "{}: {}", self.place, self.what)
    }
}

/// A piece of the text.
#[derive(Clone, Copy)]
pub enum Token<'t> {
    Number(&'t [u8]),
    Name(&'t [u8]),
    Semicolon,
    Equals,
    /// A byte that has no place in a plan.
    Stray(u8),
    /// What some editors put before a text.
    OrderMark,
    End,
}

/// The bytes of a byte order mark.
const ORDER_MARK: &[u8] = b"\xef\xbb\xbf";
/// Digits or letters of a piece that a complaint shows.
const SHOWN: usize = 32;

/// A number or a name for a complaint, cut where it is long.
pub fn cut(piece: &[u8]) -> String {
    let more = if piece.len() > SHOWN { ".." } else { "" };
    let start = &piece[..piece.len().min(SHOWN)];
    format!("{}{more}", crate::shown::shown(OsStr::from_bytes(start)))
}

/// A piece as a complaint shows it.
impl fmt::Display for Token<'_> {
    fn fmt(&self, out: &mut fmt::Formatter) -> fmt::Result {
        match self {
            Token::Number(piece) | Token::Name(piece) => write!(out, "'{}'", cut(piece)),
            Token::Semicolon => out.write_str("';'"),
            Token::Equals => out.write_str("'='"),
            Token::Stray(byte @ b'!'..=b'~') => write!(out, "'{}'", char::from(*byte)),
            Token::Stray(b'\t') => out.write_str("a tab: spaces stand between"),
            Token::Stray(b'\r') => {
                out.write_str("a carriage return: lines end in line feeds alone")
            }
            Token::OrderMark => out.write_str("a byte order mark: a plan has none"),
            Token::Stray(byte) => write!(out, "byte {byte}"),
            Token::End => out.write_str("the end of the file"),
        }
    }
}

/// Where in the text one is.
pub struct Tokens<'t> {
    text: &'t [u8],
    at: usize,
    line: usize,
    /// Where the line starts.
    start: usize,
}

impl<'t> Tokens<'t> {
    pub fn new(text: &'t [u8]) -> Tokens<'t> {
        Tokens { text, at: 0, line: 1, start: 0 }
    }

    fn place(&self) -> Place {
        Place { line: self.line, column: self.at - self.start + 1 }
    }

    fn byte(&self) -> Option<u8> {
        self.text.get(self.at).copied()
    }

    /// Passes bytes while they are so; gives them.
    fn pass(&mut self, so: impl Fn(&u8) -> bool) -> &'t [u8] {
        let rest = &self.text[self.at..];
        let passed = &rest[..rest.iter().position(|byte| !so(byte)).unwrap_or(rest.len())];
        self.at += passed.len();
        passed
    }

    /// Passes spaces, line feeds and comments.
    fn pass_blanks(&mut self) {
        while let Some(blank @ (b' ' | b'\n' | b'#')) = self.byte() {
            match blank {
                b'#' => drop(self.pass(|byte| *byte != b'\n')),
                _ => self.at += 1,
            }
            if blank == b'\n' {
                (self.line, self.start) = (self.line + 1, self.at);
            }
        }
    }

    /// The next piece, and where it starts.
    pub fn next(&mut self) -> Result<(Place, Token<'t>), Fault> {
        self.pass_blanks();
        let place = self.place();
        let token = match self.byte() {
            Some(b'0'..=b'9') => Token::Number(self.word("a number", u8::is_ascii_digit)?),
            Some(b'a'..=b'z' | b'A'..=b'Z') => {
                Token::Name(self.word("a name", u8::is_ascii_alphanumeric)?)
            }
            Some(_) if self.text[self.at..].starts_with(ORDER_MARK) => Token::OrderMark,
            other => self.sign(other),
        };
        Ok((place, token))
    }

    /// Digits or letters; nothing but a blank or a sign may follow at once.
    fn word(&mut self, kind: &str, so: impl Fn(&u8) -> bool) -> Result<&'t [u8], Fault> {
        let word = self.pass(so);
        match self.byte() {
            None | Some(b' ' | b'\n' | b'#' | b'=' | b';') => Ok(word),
            Some(byte) => {
                let (place, found) = (self.place(), Token::Stray(byte));
                let what = format!(
                    "expected a space, a line feed or a semicolon after {kind}, found {found}"
                );
                Err(Fault { place, what })
            }
        }
    }

    fn sign(&mut self, byte: Option<u8>) -> Token<'t> {
        self.at += usize::from(byte.is_some());
        match byte {
            None => Token::End,
            Some(b';') => Token::Semicolon,
            Some(b'=') => Token::Equals,
            Some(other) => Token::Stray(other),
        }
    }
}
