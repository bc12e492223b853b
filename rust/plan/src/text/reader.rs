//! Reads calls from the pieces of a text.

use super::item::{Item, Words};
use super::token::{cut, Fault, Place, Token, Tokens};
use crate::decimal::{value, ORDINALS};
use types::layout::RECORD_WORDS;
use types::{Call, Row};

/// What a call starts with.
const A_CALL: &str = "the number or name of a call";

/// The calls of a text, one by one, up to its end or to the first fault.
pub struct Reader<'t> {
    tokens: Tokens<'t>,
}

impl<'t> Reader<'t> {
    pub fn new(text: &'t [u8]) -> Reader<'t> {
        Reader { tokens: Tokens::new(text) }
    }

    /// The next call, or none at the end of the text.
    fn item(&mut self) -> Result<Option<Item>, Fault> {
        let (place, head) = self.tokens.next()?;
        let mut item = Item { place, call: Words::none(), expected: Words::none() };
        match head {
            Token::End => return Ok(None),
            Token::Number(digits) => number(&mut item.call, place, digits, &CALL)?,
            // Its number is known once its arguments are.
            Token::Name(name) if rows(name).next().is_some() => item.call.count = 1,
            Token::Name(name) => return Err(unknown(place, name)),
            found => return Err(not(place, A_CALL, found)),
        }
        let of = if let Token::Name(_) = head { &NAMED } else { &CALL };
        self.arguments(&mut item, of)?;
        if let Token::Name(name) = head {
            item.call.record[0] = numbered(place, name, item.call.count - 1)?;
        }
        Ok(Some(item))
    }

    /// The arguments, and what is expected, up to the semicolon.
    fn arguments(&mut self, item: &mut Item, of: &Of) -> Result<(), Fault> {
        loop {
            let (place, token) = self.tokens.next()?;
            match token {
                Token::Number(digits) => number(&mut item.call, place, digits, of)?,
                Token::Semicolon => return Ok(()),
                Token::Equals => return self.expected(item),
                found => return Err(not(place, "an argument, '=' or a semicolon", found)),
            }
        }
    }

    /// The words that are expected, up to the semicolon: at least one.
    fn expected(&mut self, item: &mut Item) -> Result<(), Fault> {
        loop {
            let (place, token) = self.tokens.next()?;
            match (token, item.expected.count) {
                (Token::Number(digits), _) => {
                    number(&mut item.expected, place, digits, &ANSWER)?;
                }
                (found, 0) => return Err(not(place, "a number after '='", found)),
                (Token::Semicolon, _) => return Ok(()),
                (found, _) => return Err(not(place, "a number or a semicolon", found)),
            }
        }
    }
}

impl Iterator for Reader<'_> {
    type Item = Result<Item, Fault>;

    fn next(&mut self) -> Option<Result<Item, Fault>> {
        self.item().transpose()
    }
}

fn not(place: Place, expected: &str, found: Token) -> Fault {
    Fault { place, what: format!("expected {expected}, found {found}") }
}

/// A name that is no call's. Where it is one in other letters, that is said.
fn unknown(place: Place, name: &[u8]) -> Fault {
    let names = Call::ROWS.iter().flat_map(|row| [row.name, row.short]);
    let hint = match { names }.find(|right| right.as_bytes().eq_ignore_ascii_case(name)) {
        Some(right) => format!("it is written {right}"),
        None => "'./box calls' lists them".into(),
    };
    let Fault { place, what } = not(place, A_CALL, Token::Name(name));
    Fault { place, what: format!("{what}: {hint}") }
}

/// Whose numbers are read: what one is called, what are too many, and how many
/// words stand before the first that is written as a number.
struct Of(&'static str, &'static str, usize);

const CALL: Of = Of("number", "31 arguments", 0);
const NAMED: Of = Of("number", "31 arguments", 1);
const ANSWER: Of = Of("expected number", "32 expected numbers", 0);

/// One number more among these words.
fn number(words: &mut Words, place: Place, digits: &[u8], of: &Of) -> Result<(), Fault> {
    let (Of(kind, most, before), shown) = (of, || cut(digits));
    if words.count == RECORD_WORDS {
        let what = format!("expected a semicolon after at most {most}, found '{}'", shown());
        return Err(Fault { place, what });
    }
    let value = value(digits).ok_or_else(|| {
        let ordinal = ORDINALS[words.count - before];
        let what = format!("the {ordinal} {kind}, {}, is above {}", shown(), u32::MAX);
        Fault { place, what }
    });
    words.push(value?);
    Ok(())
}

/// The rows of this name: one, or those that share it.
fn rows(name: &[u8]) -> impl Iterator<Item = &'static Row> + '_ {
    Call::ROWS.iter().filter(move |row| [row.name, row.short].map(str::as_bytes).contains(&name))
}

/// The number of a named call. Of rows that share a name, the arguments decide.
fn numbered(place: Place, name: &[u8], given: usize) -> Result<u32, Fault> {
    let shared: Vec<&Row> = rows(name).collect();
    if let [only] = shared[..] {
        return Ok(only.number);
    }
    let decided = shared.iter().find(|row| row.words() == given);
    decided.map(|row| row.number).ok_or_else(|| {
        let either = shared.iter().map(|row| format!("{} ({})", row.words(), row.short));
        let either = either.collect::<Vec<_>>().join(" or ");
        let what = format!("expected {either} arguments after {}, found {given}", cut(name));
        Fault { place, what }
    })
}
