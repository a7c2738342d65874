//! The stretch of each refusal, in bytes: document 02, P2.

mod generated;

use std::ops::Range;

use generated::{Generator, Reader};
use homeludaf::{
    Angle, Color, FilterValueListParser, FuncIRI, Length, LengthListParser, Paint, Refusal, IRI,
};

/// The refusal of a text, if there is one; of a list, its last.
fn refusal(reader: Reader, text: &str) -> Option<Refusal> {
    match reader {
        Reader::Color => Color::read(text).err(),
        Reader::Length => Length::read(text).err(),
        Reader::Lengths => LengthListParser::read(text).find_map(Result::err),
        Reader::Angle => Angle::read(text).err(),
        Reader::Iri => IRI::read(text).err(),
        Reader::FuncIri => FuncIRI::read(text).err(),
        Reader::Paint => Paint::read(text).err(),
        Reader::Filters => FilterValueListParser::read(text).find_map(Result::err),
    }
}

/// Holds texts to the number and the stretch of their refusals.
fn hold(reader: Reader, told: &[(&str, u32, Range<usize>)]) {
    for (text, number, stretch) in told {
        let refusal = refusal(reader, text).expect("it is refused");
        assert_eq!(refusal.number, *number, "{reader:?} {text:?}");
        assert_eq!(refusal.stretch(), *stretch, "{reader:?} {text:?}");
    }
}

#[test]
fn colors() {
    hold(
        Reader::Color,
        &[
            ("", 4, 0..0),
            (" ", 4, 1..1),
            ("rgb(1,", 4, 6..6),
            ("#12345", 5, 6..6),
            ("foo)", 5, 3..3),
            (")", 5, 0..0),
            ("red)", 6, 3..4),
            ("red é", 6, 4..6),
            ("rgb[1", 7, 3..4),
            ("rgbé", 7, 3..4),
            ("rgb( x", 9, 5..5),
            ("rgb(1, ", 22, 7..7),
            ("rgb(1,2.,3)", 10, 6..8),
            ("rgb(1e23,2,3)", 24, 4..8),
        ],
    );
}

#[test]
fn numbers() {
    hold(
        Reader::Length,
        &[
            ("  x", 9, 2..2),
            (" ", 22, 1..1),
            ("1.", 10, 0..2),
            (".", 10, 0..1),
            ("-x", 10, 0..1),
            ("1e+m", 10, 0..3),
            (" 9007199254740992px", 23, 1..17),
            ("1e-23em", 24, 0..5),
            ("10px ", 6, 4..5),
        ],
    );
    hold(Reader::Angle, &[("1.5degé", 6, 6..8)]);
}

#[test]
fn links() {
    hold(
        Reader::FuncIri,
        &[
            ("url(#)", 5, 5..5),
            ("url('#  ')", 5, 8..8),
            ("url(#a'b)", 5, 8..8),
            (" src(#a)", 8, 1..5),
            ("éééééé", 8, 0..8),
            ("url(#a) b", 6, 8..9),
        ],
    );
    hold(Reader::Iri, &[("#", 5, 1..1), ("é", 7, 0..1)]);
}

/// A paint counts from what trimming leaves, or from its fallback; a 5 that stands for another
/// refusal is where that one was met.
#[test]
fn paints() {
    hold(
        Reader::Paint,
        &[
            ("", 5, 0..0),
            (" x", 5, 1..1),
            (" red)", 5, 3..3),
            ("rgb( x", 5, 5..5),
            ("url(x)", 5, 4..4),
            ("\u{a0} rgb(1e23,0,0)", 24, 4..8),
            (" url(#a) red)", 6, 3..4),
            ("url(#a) rgb(1,2.,3)", 10, 6..8),
            ("url(#a) #12345", 5, 6..6),
            ("url(#a) rgb(1,2,x)", 9, 8..8),
        ],
    );
}

#[test]
fn lists() {
    hold(Reader::Lengths, &[("1 2 x", 9, 4..4), ("1,é", 9, 2..2)]);
    hold(
        Reader::Filters,
        &[
            ("none x", 5, 5..5),
            ("foo() blur()", 6, 0..12),
            ("blur() foo()", 6, 7..12),
            ("blur(1 2)", 7, 7..8),
            ("blur(50%)", 11, 0..8),
            ("sepia() blur(-1px)", 12, 8..17),
            ("url(#é)sepia(-0%)", 12, 8..17),
            ("hue-rotate(1)", 13, 0..12),
            ("drop-shadow( )", 14, 0..13),
            ("blur()url(#)", 15, 6..11),
        ],
    );
}

#[test]
fn a_text_that_is_too_long_has_none() {
    let text = "x".repeat(4097);
    hold(Reader::Color, &[(&text, 1, 0..0)]);
    hold(Reader::Paint, &[(&text, 1, 0..0)]);
    hold(Reader::Filters, &[(&text, 1, 0..0)]);
}

/// Whether a stretch can be that of its refusal, of a text from whose first byte it counts.
fn is_sound(refusal: Refusal, text: &str) -> bool {
    let Range { start, end } = refusal.stretch();
    let position = |place: usize| text.get(..place).map(|before| 1 + before.chars().count());
    let at_start = position(start) == Some(refusal.position);
    match refusal.number {
        1 => (start, end) == (0, 0),
        4 => (start, end) == (text.len(), text.len()),
        5 => start == end,
        6 => at_start && start < end && end == text.len(),
        7 => at_start && text.as_bytes()[start..end] == [refusal.found],
        8 => at_start && (start, end - start) == (refusal.part.start, refusal.part.len),
        9 => at_start && start == end && end < text.len(),
        22 => at_start && start == end && end == text.len(),
        10 | 23 | 24 => at_start && start < end,
        _ => {
            let named = text[start..].starts_with(|c: char| c.is_ascii_lowercase());
            let within = position(start)..=position(end);
            named && start < end && within.contains(&Some(refusal.position))
        }
    }
}

#[test]
fn generated_texts() {
    let mut generator = Generator::new(2);
    let mut text = String::new();
    let mut refused = 0;
    for _ in 0..50_000 {
        let reader = generator.case(&mut text);
        let Some(refusal) = refusal(reader, &text) else {
            continue;
        };
        refused += 1;
        let Range { start, end } = refusal.stretch();
        assert!(start <= end && end <= text.len(), "{reader:?} {text:?}");
        // A paint's stretch may count from the middle of the text.
        assert!(
            reader == Reader::Paint || is_sound(refusal, &text),
            "{reader:?} {text:?}: {refusal:?}"
        );
    }
    assert!(refused > 10_000);
}
