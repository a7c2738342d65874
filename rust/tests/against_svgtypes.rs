//! Compares this crate with svgtypes, in one process, on generated texts.
//!
//! The same source is compiled against both crates (`speaker!`), which also shows that names and
//! signatures are svgtypes'. Values are compared by their bits, links by their place in the text,
//! refusals by kind, position and what else they tell, and by their Display text; lists to their
//! end.
//!
//! Set apart, since this crate intends to differ there (document 01):
//!
//! - A text over 4,096 bytes. This crate must refuse it by 1, and no other text.
//! - A number outside the domain, refusals 10, 23 and 24. The rule is `form` below. At the position
//!   that the refusal tells there must be such a number, with that trouble; what the list gave before it must be equal; what
//!   svgtypes does from there on is not looked at. Of lengths and angles, whose number stands at
//!   the start, the refusal must come if and only if the rule says so.
//!
//! HOMELUDAF_CASES is the number of cases (200,000 if unset), HOMELUDAF_SEED the seed (1 if unset).

mod generated;

use std::env;

use generated::{Generator, Reader, READERS};

/// A value of either crate.
#[derive(PartialEq, Debug)]
enum Value {
    Color([u8; 4]),
    /// The number's bits and the unit.
    Length(u64, &'static str),
    /// The number's bits, the unit, the degrees' bits.
    Angle(u64, &'static str, u64),
    /// Start and length, and `None` for a part that is not of the text.
    Link(Option<(usize, usize)>),
    Paint(&'static str),
    /// A link, its fallback's kind and colour.
    LinkPaint(Box<Value>, &'static str, Option<[u8; 4]>),
    Plain(&'static str, u64),
    /// dx, dy, deviation, colour.
    Shadow(Box<[Value; 3]>, Option<[u8; 4]>),
}

/// A refusal of either crate.
#[derive(PartialEq, Debug)]
struct Fault {
    kind: &'static str,
    position: usize,
    bytes: Vec<u8>,
    strings: Vec<String>,
    display: String,
}

type Answer = Result<Value, Fault>;

macro_rules! speaker {
    ($module:ident, $crate_name:ident) => {
        mod $module {
            use std::str::FromStr;

            use $crate_name::{
                Angle, AngleUnit, Color, Error, FilterValue, FilterValueListParser,
                FilterValueListParserError, FuncIRI, Length, LengthListParser, LengthUnit, Paint,
                PaintFallback, IRI,
            };

            use super::{part_of, Answer, Fault, Reader, Value};

            /// All that the reader says: one answer, or those of a list up to its end.
            pub fn ask(reader: Reader, text: &str) -> Vec<Answer> {
                match reader {
                    Reader::Color => vec![Color::from_str(text)
                        .map(|c| Value::Color(color(c)))
                        .map_err(fault)],
                    Reader::Length => vec![Length::from_str(text).map(length).map_err(fault)],
                    Reader::Angle => vec![Angle::from_str(text).map(angle).map_err(fault)],
                    Reader::Iri => {
                        vec![IRI::from_str(text).map(|l| link(text, l.0)).map_err(fault)]
                    }
                    Reader::FuncIri => vec![FuncIRI::from_str(text)
                        .map(|l| link(text, l.0))
                        .map_err(fault)],
                    Reader::Paint => {
                        vec![Paint::from_str(text).map(|p| paint(text, p)).map_err(fault)]
                    }
                    Reader::Lengths => {
                        let mut list = LengthListParser::from(text);
                        let said = list
                            .by_ref()
                            .map(|l| l.map(length).map_err(fault))
                            .collect();
                        assert!(list.next().is_none(), "a list goes on after its end");
                        said
                    }
                    Reader::Filters => {
                        let mut list = FilterValueListParser::from(text);
                        let said = list
                            .by_ref()
                            .map(|f| f.map(|f| filter(text, f)).map_err(filter_fault))
                            .collect();
                        assert!(list.next().is_none(), "a list goes on after its end");
                        said
                    }
                }
            }

            fn color(c: Color) -> [u8; 4] {
                [c.red, c.green, c.blue, c.alpha]
            }

            fn length(l: Length) -> Value {
                let unit = match l.unit {
                    LengthUnit::None => "",
                    LengthUnit::Em => "em",
                    LengthUnit::Ex => "ex",
                    LengthUnit::Px => "px",
                    LengthUnit::In => "in",
                    LengthUnit::Cm => "cm",
                    LengthUnit::Mm => "mm",
                    LengthUnit::Pt => "pt",
                    LengthUnit::Pc => "pc",
                    LengthUnit::Percent => "%",
                };
                Value::Length(l.number.to_bits(), unit)
            }

            fn angle(a: Angle) -> Value {
                let unit = match a.unit {
                    AngleUnit::Degrees => "deg",
                    AngleUnit::Gradians => "grad",
                    AngleUnit::Radians => "rad",
                    AngleUnit::Turns => "turn",
                };
                Value::Angle(a.number.to_bits(), unit, a.to_degrees().to_bits())
            }

            fn link(text: &str, part: &str) -> Value {
                Value::Link(part_of(text, part))
            }

            fn paint(text: &str, p: Paint<'_>) -> Value {
                match p {
                    Paint::None => Value::Paint("none"),
                    Paint::Inherit => Value::Paint("inherit"),
                    Paint::CurrentColor => Value::Paint("currentColor"),
                    Paint::ContextFill => Value::Paint("context-fill"),
                    Paint::ContextStroke => Value::Paint("context-stroke"),
                    Paint::Color(c) => Value::Color(color(c)),
                    Paint::FuncIRI(part, fallback) => {
                        let (kind, c) = match fallback {
                            None => ("", None),
                            Some(PaintFallback::None) => ("none", None),
                            Some(PaintFallback::CurrentColor) => ("currentColor", None),
                            Some(PaintFallback::Color(c)) => ("color", Some(color(c))),
                        };
                        Value::LinkPaint(Box::new(link(text, part)), kind, c)
                    }
                }
            }

            fn filter(text: &str, f: FilterValue<'_>) -> Value {
                match f {
                    FilterValue::Blur(l) => length(l),
                    FilterValue::DropShadow {
                        color: c,
                        dx,
                        dy,
                        std_dev,
                    } => Value::Shadow(Box::new([dx, dy, std_dev].map(length)), c.map(color)),
                    FilterValue::Brightness(n) => Value::Plain("brightness", n.to_bits()),
                    FilterValue::Contrast(n) => Value::Plain("contrast", n.to_bits()),
                    FilterValue::Grayscale(n) => Value::Plain("grayscale", n.to_bits()),
                    FilterValue::HueRotate(a) => angle(a),
                    FilterValue::Invert(n) => Value::Plain("invert", n.to_bits()),
                    FilterValue::Opacity(n) => Value::Plain("opacity", n.to_bits()),
                    FilterValue::Sepia(n) => Value::Plain("sepia", n.to_bits()),
                    FilterValue::Saturate(n) => Value::Plain("saturate", n.to_bits()),
                    FilterValue::Url(l) => link(text, l),
                }
            }

            fn fault(e: Error) -> Fault {
                let display = e.to_string();
                let (kind, position, bytes, strings) = match e {
                    Error::UnexpectedEndOfStream => ("UnexpectedEndOfStream", 0, vec![], vec![]),
                    Error::UnexpectedData(p) => ("UnexpectedData", p, vec![], vec![]),
                    Error::InvalidValue => ("InvalidValue", 0, vec![], vec![]),
                    Error::InvalidIdent => ("InvalidIdent", 0, vec![], vec![]),
                    Error::InvalidChar(bytes, p) => ("InvalidChar", p, bytes, vec![]),
                    Error::InvalidString(strings, p) => ("InvalidString", p, vec![], strings),
                    Error::InvalidNumber(p) => ("InvalidNumber", p, vec![], vec![]),
                };
                Fault {
                    kind,
                    position,
                    bytes,
                    strings,
                    display,
                }
            }

            fn filter_fault(e: FilterValueListParserError) -> Fault {
                use FilterValueListParserError::*;
                let display = e.to_string();
                let (kind, position) = match e {
                    PercentageValue(p) => ("PercentageValue", p),
                    NegativeValue(p) => ("NegativeValue", p),
                    InvalidAngle(p) => ("InvalidAngle", p),
                    MissingDropShadowOffset(p) => ("MissingDropShadowOffset", p),
                    InvalidUrl(p) => ("InvalidUrl", p),
                    StreamErrors(e) => return fault(e),
                };
                Fault {
                    kind,
                    position,
                    bytes: vec![],
                    strings: vec![],
                    display,
                }
            }
        }
    };
}

speaker!(ours, homeludaf);
speaker!(theirs, svgtypes);

/// Where `part` lies in `text`, if it does.
fn part_of(text: &str, part: &str) -> Option<(usize, usize)> {
    let start = (part.as_ptr() as usize).checked_sub(text.as_ptr() as usize)?;
    (start + part.len() <= text.len()).then_some((start, part.len()))
}

/// What starts where a number is wanted, after spaces: document 01, "Numbers".
#[derive(PartialEq, Debug)]
enum Form {
    /// No digit, sign or dot, or nothing: no number starts here.
    Not,
    /// A number of the domain.
    Inside,
    /// Any other text that starts with a digit, a sign or a dot, by the number of its trouble: the
    /// form is judged before the digits, the digits before the scale.
    Outside(u32),
}

fn form(text: &[u8]) -> Form {
    let at = |i: usize| text.get(i).copied().unwrap_or(0);
    let digits = |from: usize| {
        text.iter()
            .skip(from)
            .take_while(|c| c.is_ascii_digit())
            .count()
    };
    if !matches!(at(0), b'0'..=b'9' | b'+' | b'-' | b'.') {
        return Form::Not;
    }
    let whole = usize::from(matches!(at(0), b'+' | b'-'));
    let whole_end = whole + digits(whole);
    let mut joined = text[whole..whole_end].to_vec();
    let mut end = whole_end;
    let mut fraction = 0;
    if at(end) == b'.' {
        fraction = digits(end + 1);
        joined.extend_from_slice(&text[end + 1..end + 1 + fraction]);
        end += 1 + fraction;
    }
    // A dot is followed by a digit; without one, digits stand before.
    if joined.is_empty() || (end > whole_end && fraction == 0) {
        return Form::Outside(10);
    }
    let mut exponent = 0;
    if matches!(at(end), b'e' | b'E') && !matches!(at(end + 1), b'm' | b'x') {
        let sign = usize::from(matches!(at(end + 1), b'+' | b'-'));
        let count = digits(end + 1 + sign);
        let written = &text[end + 1..end + 1 + sign + count];
        if count == 0 {
            return Form::Outside(10);
        }
        // Too many digits to be within -22 to 22 whatever the fraction is, of up to 4,096 bytes.
        let parsed = std::str::from_utf8(written).unwrap().parse::<i64>();
        exponent = parsed.unwrap_or(i64::MAX);
    }
    let m = joined.iter().fold(0u64, |m, c| {
        m.saturating_mul(10).saturating_add(u64::from(c - b'0'))
    });
    let scale = exponent.saturating_sub(fraction as i64);
    if m >= 9_007_199_254_740_992 {
        Form::Outside(23)
    } else if !(-22..=22).contains(&scale) {
        Form::Outside(24)
    } else {
        Form::Inside
    }
}

/// From where a refusal's position counts: of a paint, its fallback or what trimming leaves.
fn counted_from(reader: Reader, text: &str) -> &str {
    if reader != Reader::Paint {
        return text;
    }
    let text = text.trim();
    if !text.starts_with("url(") {
        return text;
    }
    // The link ends with the first bracket up to which it reads as a link.
    let end = text
        .match_indices(')')
        .map(|(i, _)| i + 1)
        .find(|end| svgtypes::FuncIRI::from_str(&text[..*end]).is_ok());
    end.map_or(text, |end| {
        text[end..].trim_start_matches([' ', '\t', '\n', '\r'])
    })
}

/// What a case comes to.
#[derive(Clone, Copy, PartialEq)]
enum Outcome {
    Read,
    Refused,
    TooLong,
    Outside,
}

fn is_wanted(fault: &Fault, wanted: &str) -> bool {
    fault.strings.get(1).is_some_and(|w| w == wanted)
}

/// What a refused number is, by what the refusal says was found.
fn refused_form(fault: &Fault) -> Form {
    match fault.strings[0].as_str() {
        "one outside it" => Form::Outside(10),
        "one that is too large" => Form::Outside(23),
        "one whose scale is out of range" => Form::Outside(24),
        _ => Form::Not,
    }
}

/// Compares the answers to one text; a difference is told.
fn compare(
    reader: Reader,
    text: &str,
    said: &[Answer],
    other: &[Answer],
) -> Result<Outcome, &'static str> {
    let last = said.last().and_then(|a| a.as_ref().err());
    let too_long = last.is_some_and(|f| is_wanted(f, "a text of at most 4096 bytes"));
    if too_long != (text.len() > 4096) {
        return Err("refusal 1 belongs to the texts over 4,096 bytes and to no others");
    }
    if too_long {
        return Ok(Outcome::TooLong);
    }

    let outside = last.filter(|f| is_wanted(f, "a number within the domain"));
    if matches!(reader, Reader::Length | Reader::Angle) {
        let start = text.trim_start_matches([' ', '\t', '\n', '\r']);
        if outside.is_some() != matches!(form(start.as_bytes()), Form::Outside(_)) {
            return Err("10, 23 and 24 belong to the numbers outside the domain and to no others");
        }
    }
    if let Some(fault) = outside {
        let base = counted_from(reader, text);
        let rest = base.char_indices().nth(fault.position.wrapping_sub(1));
        if rest.is_none_or(|(i, _)| form(&base.as_bytes()[i..]) != refused_form(fault)) {
            return Err(
                "at the refusal's position no number outside the domain starts, or another",
            );
        }
        let before = said.len() - 1;
        if other.get(..before) != Some(&said[..before]) {
            return Err("the values before a number outside the domain differ");
        }
        return Ok(Outcome::Outside);
    }

    if said != other {
        return Err("the answers differ");
    }
    Ok(if last.is_some() {
        Outcome::Refused
    } else {
        Outcome::Read
    })
}

fn from_environment(name: &str, otherwise: u64) -> u64 {
    match env::var(name) {
        Ok(written) => written
            .parse()
            .unwrap_or_else(|_| panic!("{name} is no number: {written}")),
        Err(_) => otherwise,
    }
}

#[test]
fn both_crates_answer_alike() {
    let cases = from_environment("HOMELUDAF_CASES", 200_000);
    let seed = from_environment("HOMELUDAF_SEED", 1);
    println!("seed {seed}, {cases} cases");

    let mut generator = Generator::new(seed);
    let mut text = String::new();
    let mut counts = [[0u64; 4]; READERS.len()];
    let mut differences = 0;
    for case in 0..cases {
        let reader = generator.case(&mut text);
        let (said, other) = (ours::ask(reader, &text), theirs::ask(reader, &text));
        match compare(reader, &text, &said, &other) {
            Ok(outcome) => counts[reader as usize][outcome as usize] += 1,
            Err(why) => {
                differences += 1;
                if differences <= 20 {
                    println!("case {case}: {reader:?} {text:?}: {why}\n  {said:?}\n  {other:?}");
                }
            }
        }
    }

    println!("reader: read, refused; set apart: too long, outside the domain");
    let mut total = [0; 4];
    for reader in READERS {
        let [read, refused, too_long, outside] = counts[reader as usize];
        println!("{reader:?}: {read}, {refused}; {too_long}, {outside}");
        for (sum, n) in total.iter_mut().zip(counts[reader as usize]) {
            *sum += n;
        }
    }
    let [read, refused, too_long, outside] = total;
    println!("all: {read}, {refused}; {too_long}, {outside}; {differences} differences");
    assert_eq!(differences, 0, "seed {seed}, {cases} cases");
    // The comparison would be hollow if nearly all were refused or set apart.
    if cases >= 10_000 {
        assert!(read > cases / 4 && refused > cases / 10 && too_long + outside < cases / 5);
    }
}

#[test]
fn the_rule_for_numbers() {
    for inside in [
        "0",
        "-0",
        "+1.5",
        ".5",
        "1em",
        "1ex",
        "1e5",
        "1E-3px",
        "9007199254740991",
        "1e22",
        "0.5%",
    ] {
        assert_eq!(form(inside.as_bytes()), Form::Inside, "{inside}");
    }
    for (outside, number) in [
        ("-", 10),
        ("+", 10),
        (".", 10),
        ("1.", 10),
        ("1.e3", 10),
        ("1e", 10),
        ("1e+", 10),
        ("--1", 10),
        ("9007199254740992.", 10),
        ("9007199254740992", 23),
        ("9007199254740992e23", 23),
        ("1e23", 24),
        ("0e23", 24),
        ("1e-23", 24),
        ("1e99999999999999999999", 24),
    ] {
        assert_eq!(form(outside.as_bytes()), Form::Outside(number), "{outside}");
    }
    for not in ["", "e5", "px", ")", "#"] {
        assert_eq!(form(not.as_bytes()), Form::Not, "{not}");
    }
}
