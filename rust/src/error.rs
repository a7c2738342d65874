//! svgtypes' errors, and the numbers behind them.

use std::fmt;

use crate::record::{foreign, Record};
use crate::refusal::{self, Refusal};

// The texts of the refusals that svgtypes has not: what was found, what was wanted.
const TOO_LONG: [&str; 2] = ["a longer one", "a text of at most 4096 bytes"];
const WITHIN: &str = "a number within the domain";
const WRONG_FORM: [&str; 2] = ["one outside it", WITHIN];
const TOO_LARGE: [&str; 2] = ["one that is too large", WITHIN];
const FAR_SCALE: [&str; 2] = ["one whose scale is out of range", WITHIN];

/// List of all errors.
///
/// The variants are svgtypes', so that a `match` written for svgtypes stays as it is. What svgtypes
/// does not refuse, or not by a number of its own, comes as [`Error::InvalidString`]:
///
/// - a text over 4,096 bytes: "expected 'a text of at most 4096 bytes' not 'a longer one' at
///   position 0";
/// - a number outside the domain: "expected 'a number within the domain' not 'one outside it' at
///   position 5", for a number that does not keep to the form; or, in its place, 'one that is too large'
///   or 'one whose scale is out of range'. For some of these (`-`, `.`, `1e`, `1e400`) svgtypes has
///   `InvalidNumber`.
///
/// [`Error::refusal`] tells them apart by number. It cannot tell 22 from 9, which both are
/// [`Error::InvalidNumber`]: who wants to know calls `read` of the type, which gives the [`Refusal`]
/// itself.
#[derive(Debug, PartialEq, Eq)]
pub enum Error {
    /// An input data ended earlier than expected.
    UnexpectedEndOfStream,

    /// An input text contains unknown data.
    UnexpectedData(usize),

    /// A provided string doesn't have a valid data.
    InvalidValue,

    /// An invalid ident. No reader here gives it; it is in svgtypes' list.
    InvalidIdent,

    /// An invalid/unexpected character.
    ///
    /// The first byte is an actual one, others - expected.
    InvalidChar(Vec<u8>, usize),

    /// An unexpected text. Also a text that is too long and a number outside the domain: see above.
    ///
    /// The first string is an actual one, others - expected.
    InvalidString(Vec<String>, usize),

    /// An invalid number.
    InvalidNumber(usize),
}

impl Error {
    /// The refusal's number and position, and the bytes found and wanted of a 7.
    ///
    /// An error keeps no more of a refusal: 22 comes as 9, the part of an 8 is empty, and every stretch
    /// is `0..0`.
    pub fn refusal(&self) -> Refusal {
        match *self {
            Error::UnexpectedEndOfStream => Refusal::at(4, 0),
            Error::InvalidValue => Refusal::at(5, 0),
            Error::UnexpectedData(position) => Refusal::at(6, position),
            Error::InvalidChar(ref bytes, position) => {
                let byte = |i| bytes.get(i).copied().unwrap_or(0);
                Refusal::at(7, position).with_bytes([byte(0), byte(1)])
            }
            Error::InvalidString(ref strings, position) => {
                Refusal::at(number_of(strings), position)
            }
            Error::InvalidNumber(position) => Refusal::at(9, position),
            Error::InvalidIdent => Refusal::at(0, 0),
        }
    }

    /// The error of a refused record.
    #[inline]
    pub(crate) fn of(record: &Record, text: &str) -> Self {
        match record.number() {
            4 => Error::UnexpectedEndOfStream,
            5 => Error::InvalidValue,
            6 => Error::UnexpectedData(record.position()),
            9 | 22 => Error::InvalidNumber(record.position()),
            _ => Error::with_texts(record, text),
        }
    }

    /// The errors that tell the bytes found and wanted, or the part found, and so allocate.
    #[cold]
    fn with_texts(record: &Record, text: &str) -> Self {
        let position = record.position();
        match record.number() {
            1 => Error::InvalidString(TOO_LONG.map(String::from).into(), position),
            7 => Error::InvalidChar(record.found_and_wanted().into(), position),
            8 => {
                let strings = [record.found_part(text), refusal::LINK_START];
                Error::InvalidString(strings.map(String::from).into(), position)
            }
            10 => Error::InvalidString(WRONG_FORM.map(String::from).into(), position),
            23 => Error::InvalidString(TOO_LARGE.map(String::from).into(), position),
            24 => Error::InvalidString(FAR_SCALE.map(String::from).into(), position),
            other => foreign("refusal", other),
        }
    }
}

/// The number of an [`Error::InvalidString`], by its texts.
fn number_of(strings: &[String]) -> u32 {
    let is = |texts: [&str; 2]| strings == texts;
    match strings.get(1).map(String::as_str) {
        Some(wanted) if wanted == TOO_LONG[1] => 1,
        Some(WITHIN) if is(TOO_LARGE) => 23,
        Some(WITHIN) if is(FAR_SCALE) => 24,
        Some(WITHIN) => 10,
        _ => 8,
    }
}

impl fmt::Display for Error {
    fn fmt(&self, f: &mut fmt::Formatter<'_>) -> fmt::Result {
        match *self {
            Error::UnexpectedEndOfStream => write!(f, "unexpected end of stream"),
            Error::UnexpectedData(pos) => write!(f, "unexpected data at position {pos}"),
            Error::InvalidValue => write!(f, "invalid value"),
            Error::InvalidIdent => write!(f, "invalid ident"),
            Error::InvalidChar(ref chars, pos) => {
                let chars: Vec<String> = chars.iter().map(|c| char::from(*c).into()).collect();
                expected(f, &chars, pos)
            }
            Error::InvalidString(ref strings, pos) => expected(f, strings, pos),
            Error::InvalidNumber(pos) => write!(f, "invalid number at position {pos}"),
        }
    }
}

/// Writes the actual text, which is the first, and the expected ones.
fn expected(f: &mut fmt::Formatter<'_>, texts: &[String], pos: usize) -> fmt::Result {
    let (actual, wanted) = match texts.split_first() {
        Some((actual, wanted)) => (actual.as_str(), wanted.join("', '")),
        None => ("", String::new()),
    };
    write!(f, "expected '{wanted}' not '{actual}' at position {pos}")
}

impl std::error::Error for Error {
    fn description(&self) -> &str {
        "an SVG data parsing error"
    }
}
