//! Links are parts of the caller's text, not copies.

use homeludaf::{FilterValue, FilterValueListParser, FuncIRI, Paint, PaintFallback, IRI};

/// The byte place at which a part of the text starts.
fn start(text: &str, part: &str) -> usize {
    let start = part.as_ptr() as usize - text.as_ptr() as usize;
    assert_eq!(&text[start..start + part.len()], part);
    start
}

#[test]
fn iri() {
    let text = String::from("  #qwe  ");
    let link = IRI::from_str(&text).unwrap().0;
    assert_eq!((link, start(&text, link)), ("qwe", 3));
}

#[test]
fn func_iri() {
    for (text, wanted, place) in [
        ("url(#qwe)", "qwe", 5),
        (" url( #é€ )", "é€", 7),
        ("url('#a b ')", "a b", 6),
        ("url( \" #x\u{a0}\" )", "x", 8),
    ] {
        let text = String::from(text);
        let link = FuncIRI::from_str(&text).unwrap().0;
        assert_eq!((link, start(&text, link)), (wanted, place), "{text}");
    }
}

#[test]
fn paint_counts_from_the_lent_text() {
    let text = String::from("\u{3000} url(#grad) none ");
    match Paint::from_str(&text).unwrap() {
        Paint::FuncIRI(link, Some(PaintFallback::None)) => {
            assert_eq!((link, start(&text, link)), ("grad", 9));
        }
        other => panic!("{other:?}"),
    }
}

#[test]
fn filter() {
    let text = String::from("blur(1) url(#é) sepia()");
    let link = FilterValueListParser::from(text.as_str())
        .find_map(|v| match v {
            Ok(FilterValue::Url(link)) => Some(link),
            _ => None,
        })
        .unwrap();
    assert_eq!((link, start(&text, link)), ("é", 13));
}

/// A link outlives its parser, for it borrows from the text alone.
#[test]
fn lifetimes() {
    fn first(text: &str) -> Option<&str> {
        match FilterValueListParser::from(text).next()? {
            Ok(FilterValue::Url(link)) => Some(link),
            _ => None,
        }
    }
    assert_eq!(first("url(#a)"), Some("a"));
}
