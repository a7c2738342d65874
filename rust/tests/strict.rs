//! The house rules for new artwork: document 02, P4.

mod generated;

use generated::{Generator, Reader};
use homeludaf::{Color, Refusal};

fn color([red, green, blue, alpha]: [u8; 4]) -> Color {
    Color::new_rgba(red, green, blue, alpha)
}

/// The refusal of a text that only the house rules refuse.
fn refusal(text: &str) -> Refusal {
    assert!(Color::read(text).is_ok(), "{text:?}");
    Color::read_strict(text).expect_err(text)
}

#[test]
fn strict_texts() {
    for (text, channels) in [
        ("#123", [17, 34, 51, 255]),
        (" #aBcDeF\n", [171, 205, 239, 255]),
        ("Red", [255, 0, 0, 255]),
        ("transparent", [0, 0, 0, 0]),
        ("rgb(1,2,3)", [1, 2, 3, 255]),
        ("RGB( -1 ,\t+002, 300 )", [0, 2, 255, 255]),
        ("rgb(20%,100.0%,.0%)", [51, 255, 0, 255]),
        ("rgba(1,2,3,.5)", [1, 2, 3, 128]),
        ("rgba(20%,0%,0%,2)", [51, 0, 0, 255]),
        ("hsl(120,100%,50%)", [0, 255, 0, 255]),
        ("hsla(-240.0,100%,50%,-1)", [0, 255, 0, 0]),
        ("rgb(9007199254740991,0,0)", [255, 0, 0, 255]),
    ] {
        assert_eq!(Color::read_strict(text), Ok(color(channels)), "{text:?}");
    }
}

#[test]
fn where_no_strict_text_can_go_on() {
    for (text, position) in [
        ("rgb(1.0,2,3)", 8),
        ("rgb(1,2.0,3)", 8),
        ("rgb(1.0 ,2,3)", 8),
        ("#1234", 6),
        ("#1234 ", 6),
        ("#12345678", 8),
        ("rgb(1,2,3,4)", 10),
        ("rgb(1,2,3,)", 10),
        ("rgba(1,2,3)", 11),
        ("rgb(1e0,2,3)", 6),
        ("rgb(1 2 3)", 7),
        ("rgb(1-2-3)", 6),
        ("rgb(1%,2,3)", 9),
        ("hsl(120,100,50)", 12),
        ("hsl(0,1%,1)", 11),
        // The 23rd digit after the dot.
        ("hsl(.00000000000000000000000e1,0%,0%)", 28),
    ] {
        let refusal = refusal(text);
        assert_eq!(
            (refusal.number, refusal.position),
            (18, position),
            "{text:?}"
        );
        assert_eq!(refusal.stretch(), position - 1..position - 1, "{text:?}");
        assert_eq!((refusal.place, refusal.found, refusal.wanted), (0, 0, 0));
        assert_eq!((refusal.part.start, refusal.part.len), (0, 0));
        assert_eq!(
            refusal.to_string(),
            format!("the colour is not written by the house rules: it cannot go on so at character {position}")
        );
    }
}

/// A text that is as long as may be could go on all the same.
#[test]
fn the_limit_is_not_where_it_stops() {
    let text = " ".repeat(4091) + "#1234";
    assert_eq!(refusal(&text).position, 4097);
    let text = " ".repeat(4092) + "#1234";
    assert_eq!(Color::read_strict(&text).unwrap_err().number, 1);
    assert!(Color::read_strict(&text[1..4096]).is_ok());
}

#[test]
fn what_both_refuse_keeps_its_refusal() {
    for (text, number) in [
        ("", 4),
        ("#12345", 5),
        ("currentColor", 5),
        ("#1234)", 6),
        ("rgb (1,2,3)", 7),
        ("rgb(1,2%,3)", 9),
        ("rgb(5.,0,0)", 10),
        ("rgb(1.0, ", 22),
        ("rgb(9007199254740992,0,0)", 23),
        ("rgb(1e23,0,0)", 24),
    ] {
        let refusal = Color::read_strict(text).unwrap_err();
        assert_eq!(refusal.number, number, "{text:?}");
        assert_eq!(Err(refusal), Color::read(text), "{text:?}");
    }
}

/// Whether some strict text begins so: it is tried with digits, and with what is left of a value, up to
/// three values more, and a bracket.
fn can_go_on(beginning: &str) -> bool {
    let strict = |ending: &str| Color::read_strict(&format!("{beginning}{ending}")).is_ok();
    let more = ["", ",0", ",0%"];
    let values = ["", "0", ".0", "%", "0%", ".0%"].iter();
    values
        .flat_map(|value| more.map(|a| (value, a)))
        .flat_map(|(value, a)| more.map(|b| (value, a, b)))
        .flat_map(|(value, a, b)| more.map(|c| format!("{value}{a}{b}{c})")))
        .any(|ending| strict(&ending))
        || (0..=5).any(|digits| strict(&"0".repeat(digits)))
}

#[test]
fn generated_texts() {
    let mut generator = Generator::new(4);
    let mut text = String::new();
    // How many are read by both, by the loose reading alone, and by neither.
    let mut counts = [0; 3];
    for _ in 0..100_000 {
        if generator.case(&mut text) != Reader::Color {
            continue;
        }
        match (Color::read(&text), Color::read_strict(&text)) {
            (Ok(loose), Ok(strict)) => {
                assert_eq!(loose, strict, "{text:?}");
                counts[0] += 1;
            }
            (Ok(_), Err(refusal)) => {
                assert_eq!(refusal.number, 18, "{text:?}");
                let at = refusal.position - 1;
                assert!(text.is_ascii() && refusal.stretch() == (at..at), "{text:?}");
                assert!(can_go_on(&text[..at]), "{text:?} stops at {at}");
                assert!(at == text.len() || !can_go_on(&text[..=at]), "{text:?}");
                counts[1] += 1;
            }
            (Err(loose), strict) => {
                assert_eq!(strict, Err(loose), "{text:?}");
                counts[2] += 1;
            }
        }
    }
    assert!(counts.iter().all(|n| *n > 1_000), "{counts:?}");
}
