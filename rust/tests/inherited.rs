//! Whose text paints an element: document 02, P6.

mod generated;

use std::error::Error;
use std::iter;

use generated::Generator;
use homeludaf::{inherited, inherited_from, Inherited, InheritedText, Paint};

/// The 25 White_Space characters.
const WHITE: &str = "\u{9}\u{a}\u{b}\u{c}\u{d} \u{85}\u{a0}\u{1680}\u{2000}\u{2001}\u{2002}\u{2003}\u{2004}\u{2005}\u{2006}\u{2007}\u{2008}\u{2009}\u{200a}\u{2028}\u{2029}\u{202f}\u{205f}\u{3000}";

/// Holds the answer to two texts.
fn hold(own: &str, parent: &str, told: Inherited) {
    assert_eq!(inherited(own, parent), Ok(told), "{own:?} {parent:?}");
}

/// Holds the refusal of one of two texts: how far up it stands, and its number.
fn refuse(own: &str, parent: &str, up: usize, number: u32) {
    let refused = inherited(own, parent).expect_err("it is refused");
    let told = (refused.up, refused.refusal.number);
    assert_eq!(told, (up, number), "{own:?} {parent:?}");
    let text = [own, parent][up];
    assert_eq!(Paint::read(text), Err(refused.refusal), "{text:?}");
}

/// The text that was found among an element and its ancestors, and how far up.
fn found<'a>(own: &'a str, ancestors: &[&'a str]) -> Option<(usize, &'a str)> {
    let told = inherited_from(own, ancestors.iter().copied()).expect("none is refused");
    told.map(|InheritedText { up, text, .. }| (up, text))
}

#[test]
fn two_texts() {
    hold("red", "blue", Inherited::Own("red"));
    hold("red", "", Inherited::Own("red"));
    hold(" none\t", "inherit", Inherited::Own("none"));
    hold("\u{a0}url(#a) red ", "", Inherited::Own("url(#a) red"));
    for silent in ["", " ", "\u{a0}", "inherit", " inherit\u{3000}"] {
        hold(silent, "red", Inherited::Parent("red"));
        hold(
            silent,
            "\u{2003}url('#é') none\n",
            Inherited::Parent("url('#é') none"),
        );
        for parent in ["", "\t ", "\u{a0}", "inherit", "\u{85}inherit "] {
            hold(silent, parent, Inherited::Higher);
        }
    }
}

#[test]
fn refused_texts() {
    refuse("x", "red", 0, 5);
    refuse("Inherit", "red", 0, 5);
    refuse("inherit x", "red", 0, 5);
    refuse("\u{200b}", "red", 0, 5);
    refuse("url(#a) red)", "red", 0, 6);
    refuse("", "x", 1, 5);
    refuse(" ", "Inherit", 1, 5);
    refuse("inherit", "\u{a0}rgb(1e23,0,0)", 1, 24);
    refuse("", "url(#a) rgb(1,2.,3)", 1, 10);
    // The own text is judged first.
    refuse("x", "url(#a) red)", 0, 5);
}

/// The limit counts white space, and holds of the text that is asked.
#[test]
fn long_texts() {
    let spaces = " ".repeat(4097);
    refuse(&spaces, "red", 0, 1);
    refuse("", &spaces, 1, 1);
    hold("red", &spaces, Inherited::Own("red"));
    hold(&spaces[1..], "red", Inherited::Parent("red"));
    hold("", &spaces[1..], Inherited::Higher);
}

#[test]
fn a_parent_that_is_not_chosen_is_not_looked_at() {
    for parent in ["x", "", "inherit", &"x".repeat(4097)] {
        hold(" red", parent, Inherited::Own("red"));
        refuse("#12345", parent, 0, 5);
    }
}

#[test]
fn every_character_that_is_trimmed() {
    assert_eq!(WHITE.chars().count(), 25);
    for c in WHITE.chars() {
        let alone = c.to_string();
        hold(&alone, &format!("{c}red{c}"), Inherited::Parent("red"));
        hold(&format!("{c}inherit{c}"), &alone, Inherited::Higher);
    }
    for c in (0..0x3100)
        .filter_map(char::from_u32)
        .filter(|c| !WHITE.contains(*c))
    {
        refuse(&c.to_string(), "red", 0, 5);
    }
}

#[test]
fn ancestors() {
    assert_eq!(found(" red", &["x", "blue"]), Some((0, "red")));
    assert_eq!(found("", &["blue ", "x"]), Some((1, "blue")));
    assert_eq!(
        found("inherit", &["", "\u{a0}", "inherit", " none"]),
        Some((4, "none"))
    );
    assert_eq!(found("", &[]), None);
    assert_eq!(found("inherit", &[""; 7]), None);

    let mut long = vec!["inherit"; 10_000];
    long.push(" url(#a) ");
    assert_eq!(found("", &long), Some((10_001, "url(#a)")));
}

#[test]
fn refused_ancestors() {
    let refused = |own, ancestors: [&'static str; 3]| {
        let refused = inherited_from(own, ancestors).expect_err("it is refused");
        (refused.up, refused.refusal.number)
    };
    assert_eq!(refused("x", ["y", "", "red"]), (0, 5));
    assert_eq!(refused("", ["url(#a) red)", "red", "red"]), (1, 6));
    assert_eq!(refused("", ["inherit", "", "rgb(1e23,0,0)"]), (3, 24));
}

/// Nobody behind the one that tells, or that is refused, is asked for its text.
#[test]
fn the_iterator_is_not_advanced_further() {
    for (own, texts, taken) in [
        ("red", ["none", "none", "none"], 0),
        ("x", ["none", "none", "none"], 0),
        ("", ["none", "none", "none"], 1),
        ("", ["inherit", "x", "none"], 2),
        ("inherit", ["", " ", "none"], 3),
    ] {
        let mut left = texts.into_iter();
        let _ = inherited_from(own, left.by_ref());
        assert_eq!(left.len(), 3 - taken, "{own:?} {texts:?}");
    }
    // Not even where there is no end.
    let told = inherited_from("", iter::repeat("red")).unwrap().unwrap();
    assert_eq!((told.up, told.text), (1, "red"));
}

#[test]
fn a_refusal_says_whose_text_it_is() {
    let says = |own, ancestors: [&'static str; 2]| {
        let refused = inherited_from(own, ancestors).unwrap_err();
        let why = refused.source().expect("why").to_string();
        assert!(refused.to_string().ends_with(&why), "{refused}");
        refused.to_string()
    };
    let why = "the text is no such value";
    assert_eq!(
        says("x", ["", ""]),
        format!("the element's own text: {why}")
    );
    assert_eq!(says("", ["x", ""]), format!("the parent's text: {why}"));
    assert_eq!(says("", ["", "x"]), format!("the text 2 levels up: {why}"));
}

/// What a text tells by itself, in the paint's words: nothing, its trimmed part, or its refusal.
fn told_alone(text: &str) -> Option<Result<&str, homeludaf::Refusal>> {
    let trimmed = text.trim();
    match Paint::read(text) {
        Err(refusal) if refusal.number == 1 => Some(Err(refusal)),
        _ if trimmed.is_empty() => None,
        Ok(Paint::Inherit) => None,
        Ok(_) => Some(Ok(trimmed)),
        Err(refusal) => Some(Err(refusal)),
    }
}

#[test]
fn generated_texts() {
    let mut generator = Generator::new(6);
    let mut text = String::new();
    // How many were chosen, and how many were refused: of the own texts, and of the parents'.
    let mut counts = [[0, 0]; 2];
    for _ in 0..50_000 {
        generator.case(&mut text);
        let text = text.as_str();
        for (own, parent, up) in [(text, "inherit", 0), ("\u{a0}", text, 1)] {
            match (inherited(own, parent), told_alone(text)) {
                (Ok(Inherited::Higher), None) => {}
                (Ok(Inherited::Own(part)), Some(Ok(told))) if up == 0 => assert_eq!(part, told),
                (Ok(Inherited::Parent(part)), Some(Ok(told))) if up == 1 => assert_eq!(part, told),
                (Err(refused), Some(Err(refusal))) => {
                    assert_eq!((refused.up, refused.refusal), (up, refusal), "{text:?}")
                }
                (answer, told) => panic!("{text:?}: {answer:?}, not {told:?}"),
            }
            if let Some(told) = told_alone(text) {
                counts[up][usize::from(told.is_err())] += 1;
            }
        }
    }
    assert!(counts.iter().flatten().all(|n| *n > 1_000), "{counts:?}");
}
