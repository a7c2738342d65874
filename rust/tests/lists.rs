//! Lists to their end.

use homeludaf::{
    Angle, AngleUnit, Color, FilterValue, FilterValueListParser, Length, LengthListParser,
    LengthUnit,
};

#[test]
fn lengths() {
    let said: Vec<Length> = LengthListParser::from("10 20px, 5%,-.5em")
        .map(Result::unwrap)
        .collect();
    assert_eq!(
        said,
        [
            Length::new_number(10.0),
            Length::new(20.0, LengthUnit::Px),
            Length::new(5.0, LengthUnit::Percent),
            Length::new(-0.5, LengthUnit::Em),
        ]
    );
}

#[test]
fn filters() {
    let text = "blur(2px) drop-shadow(1 2 3 red) opacity(50%) hue-rotate(90deg) url(#x)";
    let said: Vec<FilterValue<'_>> = FilterValueListParser::from(text)
        .map(Result::unwrap)
        .collect();
    assert_eq!(
        said,
        [
            FilterValue::Blur(Length::new(2.0, LengthUnit::Px)),
            FilterValue::DropShadow {
                color: Some(Color::red()),
                dx: Length::new_number(1.0),
                dy: Length::new_number(2.0),
                std_dev: Length::new_number(3.0),
            },
            FilterValue::Opacity(0.5),
            FilterValue::HueRotate(Angle::new(90.0, AngleUnit::Degrees)),
            FilterValue::Url("x"),
        ]
    );
}

#[test]
fn the_seven_plain_functions() {
    let text = "brightness() contrast(2)grayscale(3%) invert(.4) opacity(5) sepia(6) saturate(7)";
    let said: Vec<FilterValue<'_>> = FilterValueListParser::from(text)
        .map(Result::unwrap)
        .collect();
    assert_eq!(
        said,
        [
            FilterValue::Brightness(1.0),
            FilterValue::Contrast(2.0),
            FilterValue::Grayscale(0.03),
            FilterValue::Invert(0.4),
            FilterValue::Opacity(5.0),
            FilterValue::Sepia(6.0),
            FilterValue::Saturate(7.0),
        ]
    );
}

#[test]
fn a_refusal_ends_the_list() {
    let mut list = FilterValueListParser::from("blur() blur(-1) blur()");
    assert!(list.next().unwrap().is_ok());
    assert!(list.next().unwrap().is_err());
    assert!(list.next().is_none());
    assert!(list.next().is_none());

    let mut list = LengthListParser::from("1 2 x 3");
    assert_eq!(list.by_ref().filter(|l| l.is_ok()).count(), 2);
    assert!(list.next().is_none());
}

/// What `read` of a list gives is the same list, and its refusal is whole.
#[test]
fn readers_give_the_parsers_values() {
    let text = "blur(1) sepia(2) url(#a) blur(1e23) blur()";
    let read: Vec<_> = FilterValueListParser::read(text).collect();
    let parsed: Vec<_> = FilterValueListParser::from(text).collect();
    assert_eq!(read.len(), parsed.len());
    for (one, other) in read.iter().zip(&parsed) {
        match (one, other) {
            (Ok(one), Ok(other)) => assert_eq!(one, other),
            (Err(one), Err(other)) => {
                let other = other.refusal();
                assert_eq!((one.number, one.position), (other.number, other.position));
            }
            _ => panic!("{one:?} and {other:?}"),
        }
    }

    let text = "1 2px, 3%,".repeat(40) + " ";
    let read: Vec<_> = LengthListParser::read(&text).collect();
    assert_eq!(read.len(), 121);
    let parsed = LengthListParser::from(text.as_str()).map_while(Result::ok);
    assert!(read.iter().copied().map_while(Result::ok).eq(parsed));
    assert_eq!(read[120].unwrap_err().number, 22);
}

/// The boundary gives the place of such a list back as it came; the iterator must end all the same.
#[test]
fn a_list_that_is_too_long_is_refused_once() {
    let text = "1 ".repeat(2049);
    assert_eq!(LengthListParser::from(text.as_str()).count(), 1);
    let text = "blur() ".repeat(586);
    assert_eq!(FilterValueListParser::from(text.as_str()).count(), 1);
}

#[test]
fn the_longest_lists() {
    let text = "1 ".repeat(2048);
    let list = LengthListParser::from(text.as_str());
    assert_eq!(list.map(|l| l.unwrap().number).sum::<f64>(), 2048.0);
    let text = "sepia()".repeat(585);
    let list = FilterValueListParser::from(text.as_str());
    assert_eq!(list.map(Result::unwrap).count(), 585);
}

/// Values are read in advance, some at a time: no count of them is special, and what follows the
/// last is told once.
#[test]
fn lists_of_every_count() {
    for count in 0..70 {
        for (tail, refused) in [("", 0), (" x", 1), (" none", 0), (" none x", 1)] {
            let text = "sepia(1) ".repeat(count) + tail;
            let read: Vec<bool> = FilterValueListParser::from(text.as_str())
                .map(|value| value.is_ok())
                .collect();
            assert_eq!(read.iter().filter(|ok| **ok).count(), count, "{text:?}");
            assert_eq!(read.len(), count + refused, "{text:?}");
            assert!(read[..count].iter().all(|ok| *ok), "{text:?}");
        }
        let text = "7,".repeat(count) + "x";
        let read: Vec<bool> = LengthListParser::from(text.as_str())
            .map(|value| value.is_ok())
            .collect();
        assert_eq!(read.len(), count + 1, "{text:?}");
        assert!(
            read[..count].iter().all(|ok| *ok) && !read[count],
            "{text:?}"
        );
    }
}

/// As in svgtypes, a parser is copied with its place, and compared by text and place.
#[test]
fn parsers_are_values() {
    let mut list = LengthListParser::from("1 2");
    let copy = list;
    assert_eq!(list, copy);
    list.next();
    assert_ne!(list, copy);
    assert_eq!(copy.count(), 2);
    assert_eq!(list.count(), 1);

    let text = "blur(1)".repeat(40);
    let mut walked = FilterValueListParser::from(text.as_str());
    for taken in 0..40 {
        let mut other = FilterValueListParser::from(text.as_str());
        assert_eq!(other.by_ref().take(taken).count(), taken);
        assert_eq!(walked, other, "after {taken}");
        assert_eq!(walked.count(), 40 - taken);
        assert!(walked.next().is_some());
    }
}
