//! Document 01's examples, "Proofs off the press".

use homeludaf::{
    Angle, AngleUnit, Color, Error, FilterValue, FilterValueListParser,
    FilterValueListParserError as FilterError, Length, LengthListParser, LengthUnit, Paint,
    PaintFallback, Refusal,
};

/// A refusal's number and position.
type Refused = (u32, usize);

fn told(refusal: Refusal) -> Refused {
    assert_eq!(refusal.place, 0, "a `&str` is UTF-8");
    (refusal.number, refusal.position)
}

fn color(text: &str) -> Result<[u8; 4], Refused> {
    let c = Color::read(text).map_err(told)?;
    Ok([c.red, c.green, c.blue, c.alpha])
}

fn length(text: &str) -> Result<Length, Refused> {
    Length::read(text).map_err(told)
}

fn filter(text: &str) -> Option<Result<FilterValue<'_>, Refused>> {
    let first = FilterValueListParser::read(text).next()?;
    Some(first.map_err(told))
}

fn no<T>(number: u32, position: usize) -> Result<T, Refused> {
    Err((number, position))
}

#[test]
fn colors() {
    assert_eq!(color("#1234"), Ok([17, 34, 51, 68]));
    for text in ["#12345", "#1234567", "#12"] {
        assert_eq!(color(text), no(5, 0), "{text}");
    }
    assert_eq!(color("rgb(20%,50,20%)"), Ok([51, 255, 51, 255]));
    assert_eq!(color("rgb(10,20%,30)"), no(9, 10));
    assert_eq!(color("rgb(1,2,3,)"), Ok([1, 2, 3, 255]));
    assert_eq!(color("rgb(1,,2,3)"), no(9, 7));
    assert_eq!(color("rgba(0,0,0,0.5)"), Ok([0, 0, 0, 128]));
    assert_eq!(color("hsl(120,100,50)"), Ok([255; 4]));
    assert_eq!(color("hsl(359.99999,100%,50%)"), Ok([255, 0, 0, 255]));
    assert_eq!(color(""), no(4, 0));
    assert_eq!(color("red)"), no(6, 4));
}

#[test]
fn a_wanted_byte_is_told() {
    let text = "rgba(0,0,0,50%)";
    let e = text.parse::<Color>().unwrap_err();
    assert_eq!(e, Error::InvalidChar(vec![b'%', b')'], 14));
    for refusal in [Color::read(text).unwrap_err(), e.refusal()] {
        assert_eq!((refusal.found, refusal.wanted), (b'%', b')'));
        assert_eq!(told(refusal), (7, 14));
    }
}

#[test]
fn paints() {
    let paint = |text| Paint::read(text).map_err(told);
    assert_eq!(paint("url(#a) red)"), no(6, 4));
    assert_eq!(paint("red)"), no(5, 0));
    assert_eq!(
        paint(" url(#a) red "),
        Ok(Paint::FuncIRI(
            "a",
            Some(PaintFallback::Color(Color::red()))
        ))
    );
    assert_eq!(paint("\u{a0}inherit\u{2003}"), Ok(Paint::Inherit));
    // The number's position counts from what trimming leaves, and from the fallback.
    assert_eq!(paint("  rgb(1e23,0,0)"), no(24, 5));
    assert_eq!(paint("  url(#a) rgb(1e23,0,0)"), no(24, 5));
}

#[test]
fn lengths_and_numbers() {
    assert_eq!(length("10px "), no(6, 5));
    assert_eq!(length("1em"), Ok(Length::new(1.0, LengthUnit::Em)));
    assert_eq!(length("1."), no(10, 1));
    assert_eq!(
        length("9007199254740991"),
        Ok(Length::new_number(9007199254740991.0))
    );
    assert_eq!(length("9007199254740992"), no(23, 1));
    assert_eq!(length("1e22"), Ok(Length::new_number(1e22)));
    assert_eq!(length("  1e23"), no(24, 3));
    let minus_zero = length("-0").unwrap();
    assert!(minus_zero.number == 0.0 && minus_zero.number.is_sign_negative());
}

/// Document 02, P8: form before digits before scale; 22 is swallowed as 9 is, 23 and 24 are not.
#[test]
fn number_troubles() {
    assert_eq!(length("x"), no(9, 1));
    assert_eq!(length(""), no(22, 1));
    assert_eq!(length("9007199254740992."), no(10, 1));
    assert_eq!(length("9007199254740992e23"), no(23, 1));
    assert_eq!(length("0e23"), no(24, 1));
    assert_eq!(color("rgb(1,"), no(4, 0));
    assert_eq!(color("rgb(1, "), no(22, 8));
    assert_eq!(color("rgb("), no(22, 5));
    assert_eq!(color("hsl("), no(4, 0));
    let paint = |text| Paint::read(text).map_err(told);
    assert_eq!(paint("rgb("), no(5, 0));
    assert_eq!(paint("url(#a) rgb("), no(22, 5));
    assert_eq!(paint("rgb(9007199254740992,0,0)"), no(23, 5));
}

#[test]
fn angles() {
    let angle = |text| Angle::read(text).unwrap();
    assert_eq!(angle("0.5turn"), Angle::new(0.5, AngleUnit::Turns));
    assert_eq!(angle("0.5turn").to_degrees(), 180.0);
    assert_eq!(angle("100grad").to_degrees(), 90.0);
    assert_eq!(angle("1rad").to_degrees(), 57.29577951308232);
    assert_eq!(angle("-45").to_degrees(), -45.0);
}

#[test]
fn length_lists() {
    assert!(LengthListParser::from("").next().is_none());
    let one_space = LengthListParser::read(" ").next().unwrap();
    assert_eq!(one_space.map_err(told), no(22, 2));
}

#[test]
fn filters() {
    assert_eq!(filter("blur(50%)"), Some(no(11, 6)));
    assert_eq!(filter("blur(-5%)"), Some(no(12, 6)));
    assert_eq!(filter("brightness(-0)"), Some(no(12, 12)));
    assert_eq!(filter("hue-rotate(1)"), Some(no(13, 12)));
    assert_eq!(filter("drop-shadow()"), Some(no(14, 13)));
    assert_eq!(filter("url(#)"), Some(no(15, 1)));
    assert_eq!(
        filter("drop-shadow(1 2 -3)"),
        Some(Ok(FilterValue::DropShadow {
            color: None,
            dx: Length::new_number(1.0),
            dy: Length::new_number(2.0),
            std_dev: Length::zero(),
        }))
    );
    assert_eq!(filter("drop-shadow(1 2 -3 currentColor)"), Some(no(7, 20)));
    assert_eq!(filter("noneblur()"), Some(no(5, 0)));
    assert_eq!(filter("none"), None);
    assert_eq!(filter(&" ".repeat(4096)), None);
    assert_eq!(filter(&" ".repeat(4097)), Some(no(1, 0)));

    let mut list = FilterValueListParser::from("blur()none");
    let first = list.next().unwrap();
    assert_eq!(first.unwrap(), FilterValue::Blur(Length::zero()));
    assert!(list.next().is_none());
}

#[test]
fn filter_errors_are_svgtypes_variants() {
    let refused = |text| FilterValueListParser::from(text).next().unwrap();
    assert!(matches!(
        refused("blur(50%)"),
        Err(FilterError::PercentageValue(6))
    ));
    assert!(matches!(
        refused("none x"),
        Err(FilterError::StreamErrors(Error::InvalidValue))
    ));
}
