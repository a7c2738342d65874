//! The texts of the errors, and their numbers.

use std::str::FromStr;

use homeludaf::{
    Color, Error, FilterValueListParser, FilterValueListParserError, FuncIRI, Length, Paint, IRI,
};

fn filter_error(text: &str) -> FilterValueListParserError {
    FilterValueListParser::from(text)
        .next()
        .expect("the list does not end")
        .expect_err("a refusal")
}

/// Text, number and position of an error.
fn told(e: &Error) -> (String, u32, usize) {
    let refusal = e.refusal();
    assert_eq!(refusal.place, 0, "a `&str` is UTF-8");
    (e.to_string(), refusal.number, refusal.position)
}

fn is(text: &str, number: u32, position: usize) -> (String, u32, usize) {
    (text.to_owned(), number, position)
}

#[test]
fn whole_texts() {
    let color = |text| told(&Color::from_str(text).unwrap_err());
    assert_eq!(color(" "), is("unexpected end of stream", 4, 0));
    assert_eq!(color("zzz"), is("invalid value", 5, 0));
    assert_eq!(color("red blue"), is("unexpected data at position 5", 6, 5));
    assert_eq!(
        color("rgb[1,2,3)"),
        is("expected '(' not '[' at position 4", 7, 4)
    );
    assert_eq!(
        color("rgb(1,2,x)"),
        is("invalid number at position 9", 9, 9)
    );
    // Positions count characters; a byte of a wider one is told as svgtypes tells it.
    assert_eq!(
        told(&IRI::from_str("é").unwrap_err()),
        is("expected '#' not 'Ã' at position 1", 7, 1)
    );
    assert_eq!(
        told(&IRI::from_str("#é x").unwrap_err()),
        is("unexpected data at position 4", 6, 4)
    );
    assert_eq!(
        told(&FuncIRI::from_str(" #a").unwrap_err()),
        is("expected 'url(' not '#a' at position 2", 8, 2)
    );
    assert_eq!(
        told(&FuncIRI::from_str("éééé").unwrap_err()),
        is("expected 'url(' not 'éééé' at position 1", 8, 1)
    );
}

#[test]
fn what_svgtypes_does_not_refuse() {
    for (text, found, number) in [
        ("  1.", "one outside it", 10),
        ("  9007199254740992", "one that is too large", 23),
        ("  1e23", "one whose scale is out of range", 24),
    ] {
        let says = format!("expected 'a number within the domain' not '{found}' at position 3");
        assert_eq!(
            told(&Length::from_str(text).unwrap_err()),
            is(&says, number, 3)
        );
    }
    let long = "expected 'a text of at most 4096 bytes' not 'a longer one' at position 0";
    let text = " ".repeat(4097);
    assert_eq!(told(&Color::from_str(&text).unwrap_err()), is(long, 1, 0));
    assert_eq!(told(&Paint::from_str(&text).unwrap_err()), is(long, 1, 0));
    assert_eq!(filter_error(&text).refusal().number, 1);
    assert_eq!(filter_error("blur(1e23)").refusal().number, 24);
}

/// An error has no room for more: `read` alone tells a stretch.
#[test]
fn errors_keep_no_stretch() {
    let text = "rgb[1,2,3)";
    assert_eq!(Color::from_str(text).unwrap_err().refusal().stretch(), 0..0);
    assert_eq!(filter_error("blur(5%)").refusal().stretch(), 0..0);
    assert_eq!(Color::read(text).unwrap_err().stretch(), 3..4);
}

/// Nor for this: `read` alone tells a text that has ended from a wrong byte.
#[test]
fn errors_do_not_tell_22_from_9() {
    let e = Color::from_str("rgb(1, ").unwrap_err();
    assert_eq!(e, Error::InvalidNumber(8));
    assert_eq!((e.refusal().number, e.refusal().position), (9, 8));
    let refusal = Color::read("rgb(1, ").unwrap_err();
    assert_eq!((refusal.number, refusal.position), (22, 8));
}

#[test]
fn filter_lists() {
    let told = |text| {
        let e = filter_error(text);
        let refusal = e.refusal();
        (e.to_string(), refusal.number, refusal.position)
    };
    assert_eq!(
        told("blur(5%)"),
        is("a percentage value detected at position 6", 11, 6)
    );
    assert_eq!(
        told("sepia(-1)"),
        is("a negative value detected at position 7", 12, 7)
    );
    assert_eq!(
        told("hue-rotate(5)"),
        is("an invalid angle at position 12", 13, 12)
    );
    assert_eq!(
        told("drop-shadow()"),
        is(
            "drop-shadow offset values are expected at position 13",
            14,
            13
        )
    );
    assert_eq!(told(" url(#)"), is("an invalid url at position 2", 15, 2));
    assert_eq!(told("blurs()"), is("unexpected data at position 1", 6, 1));
}

#[test]
fn errors_made_by_hand() {
    assert_eq!(Error::InvalidIdent.to_string(), "invalid ident");
    assert_eq!(Error::InvalidIdent.refusal().number, 0);
    // No text is too odd to be shown.
    assert_eq!(
        Error::InvalidChar(vec![], 3).to_string(),
        "expected '' not '' at position 3"
    );
    assert_eq!(
        Error::InvalidChar(vec![b'a', b'b', b'c'], 3).to_string(),
        "expected 'b', 'c' not 'a' at position 3"
    );
    let e = FilterValueListParserError::from(Error::InvalidValue);
    assert_eq!(
        (e.to_string(), e.refusal().number),
        ("invalid value".into(), 5)
    );
}

/// A `match` written for svgtypes, with no arm for the rest, stays as it is.
#[test]
fn the_variants_are_svgtypes() {
    let name = match Length::from_str("1e23").unwrap_err() {
        Error::UnexpectedEndOfStream => "end",
        Error::UnexpectedData(_) => "data",
        Error::InvalidValue => "value",
        Error::InvalidIdent => "ident",
        Error::InvalidChar(_, _) => "char",
        Error::InvalidString(_, _) => "string",
        Error::InvalidNumber(_) => "number",
    };
    assert_eq!(name, "string");
    let _: &dyn std::error::Error = &Error::InvalidValue;
    let _: &dyn std::error::Error = &FilterValueListParserError::InvalidUrl(1);
}
