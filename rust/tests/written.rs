//! How a number was written, and where it ended: document 02, P3.

mod generated;

use std::str::FromStr;

use generated::Generator;
use homeludaf::{Angle, AngleUnit, Length, LengthListParser, LengthUnit};

/// A unit as it is written.
trait Unit {
    fn text(self) -> &'static str;
}

impl Unit for LengthUnit {
    fn text(self) -> &'static str {
        match self {
            LengthUnit::None => "",
            LengthUnit::Em => "em",
            LengthUnit::Ex => "ex",
            LengthUnit::Px => "px",
            LengthUnit::In => "in",
            LengthUnit::Cm => "cm",
            LengthUnit::Mm => "mm",
            LengthUnit::Pt => "pt",
            LengthUnit::Pc => "pc",
            LengthUnit::Percent => "%",
        }
    }
}

impl Unit for AngleUnit {
    /// Of a text that names none, too, it is degrees.
    fn text(self) -> &'static str {
        match self {
            AngleUnit::Degrees => "deg",
            AngleUnit::Gradians => "grad",
            AngleUnit::Radians => "rad",
            AngleUnit::Turns => "turn",
        }
    }
}

#[test]
fn lengths() {
    for (text, number, unit, whole, end) in [
        ("12", 12.0, LengthUnit::None, true, 2),
        ("+12", 12.0, LengthUnit::None, true, 3),
        ("-0", -0.0, LengthUnit::None, true, 2),
        ("007", 7.0, LengthUnit::None, true, 3),
        (" 7", 7.0, LengthUnit::None, true, 2),
        ("\t\n 7mm", 7.0, LengthUnit::Mm, true, 4),
        ("12px", 12.0, LengthUnit::Px, true, 2),
        ("12%", 12.0, LengthUnit::Percent, true, 2),
        ("12.0", 12.0, LengthUnit::None, false, 4),
        (".5", 0.5, LengthUnit::None, false, 2),
        ("-12.50%", -12.5, LengthUnit::Percent, false, 6),
        // This `e` is the unit's.
        ("1em", 1.0, LengthUnit::Em, true, 1),
        ("1ex", 1.0, LengthUnit::Ex, true, 1),
        ("1.5em", 1.5, LengthUnit::Em, false, 3),
        ("1e0", 1.0, LengthUnit::None, false, 3),
        ("1e0px", 1.0, LengthUnit::Px, false, 3),
        ("1E+2em", 100.0, LengthUnit::Em, false, 4),
        ("1e-0ex", 1.0, LengthUnit::Ex, false, 4),
        (
            "9007199254740991",
            9007199254740991.0,
            LengthUnit::None,
            true,
            16,
        ),
    ] {
        let written = Length::written(text).unwrap();
        assert_eq!(written.value, Length::new(number, unit), "{text:?}");
        assert_eq!((written.whole, written.end), (whole, end), "{text:?}");
    }
}

#[test]
fn angles() {
    for (text, number, unit, whole, end) in [
        ("90", 90.0, AngleUnit::Degrees, true, 2),
        (" -90deg", -90.0, AngleUnit::Degrees, true, 4),
        ("100grad", 100.0, AngleUnit::Gradians, true, 3),
        ("1e0rad", 1.0, AngleUnit::Radians, false, 3),
        ("0.5turn", 0.5, AngleUnit::Turns, false, 3),
        ("1.0", 1.0, AngleUnit::Degrees, false, 3),
    ] {
        let written = Angle::written(text).unwrap();
        assert_eq!(written.value, Angle::new(number, unit), "{text:?}");
        assert_eq!((written.whole, written.end), (whole, end), "{text:?}");
    }
}

/// The ends count from the list's first byte.
#[test]
fn lists() {
    let told = |text| -> Vec<(bool, usize)> {
        LengthListParser::written(text)
            .map(Result::unwrap)
            .map(|written| (written.whole, written.end))
            .collect()
    };
    assert_eq!(told("10 20px, 5%"), [(true, 2), (true, 5), (true, 10)]);
    assert_eq!(told("1.0em ,1em"), [(false, 3), (true, 8)]);
    assert_eq!(told("7-.5 1e1"), [(true, 1), (false, 4), (false, 8)]);
    assert_eq!(told(""), []);
    // Values are read in advance, some at a time.
    let text = "1,.5px ".repeat(585);
    let places = (0..585).map(|i| 7 * i);
    let wanted: Vec<_> = places
        .flat_map(|at| [(true, at + 1), (false, at + 4)])
        .collect();
    assert_eq!(told(&text), wanted);
}

#[test]
fn refusals_come_whole() {
    for text in ["", "x", "1.", "12px ", "9007199254740992", "1e23", "90 deg"] {
        assert_eq!(
            Length::written(text).unwrap_err(),
            Length::read(text).unwrap_err()
        );
        assert_eq!(
            Angle::written(text).unwrap_err(),
            Angle::read(text).unwrap_err()
        );
    }
    let mut list = LengthListParser::written("1.0, ");
    assert!(list.next().unwrap().is_ok());
    let refusal = list.next().unwrap().unwrap_err();
    assert_eq!((refusal.number, refusal.position), (22, 6));
    assert_eq!(list.next(), None);
}

/// Holds what was told of a number to its own text, which ends `text`; a list's commas and spaces may
/// stand before it.
fn hold(text: &str, number: f64, whole: bool) {
    let own = text.trim_start_matches([' ', '\t', '\n', '\r', ',']);
    let read = own.parse::<f64>().map(f64::to_bits);
    assert_eq!(read, Ok(number.to_bits()), "{text:?}");
    assert_eq!(whole, !own.contains(['.', 'e', 'E']), "{text:?}");
}

#[test]
fn generated_texts() {
    let mut generator = Generator::new(3);
    let mut text = String::new();
    // How many were written whole, and how many were not: lengths, angles, lengths of lists.
    let mut counts = [[0, 0]; 3];
    for _ in 0..50_000 {
        generator.case(&mut text);
        let text = text.as_str();

        let length = Length::written(text);
        assert_eq!(length.map(|w| w.value), Length::read(text));
        assert_eq!(length.ok().map(|w| w.value), Length::from_str(text).ok());
        if let Ok(written) = length {
            hold(&text[..written.end], written.value.number, written.whole);
            assert_eq!(&text[written.end..], written.value.unit.text());
            counts[0][usize::from(!written.whole)] += 1;
        }

        let angle = Angle::written(text);
        assert_eq!(angle.map(|w| w.value), Angle::read(text));
        assert_eq!(angle.ok().map(|w| w.value), Angle::from_str(text).ok());
        if let Ok(written) = angle {
            hold(&text[..written.end], written.value.number, written.whole);
            let unit = &text[written.end..];
            let named = unit == written.value.unit.text();
            assert!(named || unit.is_empty() && written.value.unit == AngleUnit::Degrees);
            counts[1][usize::from(!written.whole)] += 1;
        }

        let values = LengthListParser::written(text).map(|step| step.map(|w| w.value));
        assert!(values.eq(LengthListParser::read(text)), "{text:?}");
        let mut from = 0;
        for written in LengthListParser::written(text).map_while(Result::ok) {
            hold(
                &text[from..written.end],
                written.value.number,
                written.whole,
            );
            let unit = written.value.unit.text();
            assert!(text[written.end..].starts_with(unit), "{text:?}");
            from = written.end + unit.len();
            counts[2][usize::from(!written.whole)] += 1;
        }
    }
    assert!(counts.iter().flatten().all(|n| *n > 1_000), "{counts:?}");
}
