//! Colours set back as text.

use std::str::FromStr;

use homeludaf::{Color, ColorText};

fn color([red, green, blue, alpha]: [u8; 4]) -> Color {
    Color::new_rgba(red, green, blue, alpha)
}

/// What is written reads back, and says the same by each way to look at it.
fn holds(c: Color, text: ColorText, wanted: &str) {
    assert_eq!(text, wanted, "{c:?}");
    assert_eq!(text.as_str(), wanted);
    assert_eq!(AsRef::<str>::as_ref(&text), wanted);
    assert_eq!(text.to_string(), wanted);
    assert_eq!(format!("{text:?}"), format!("{wanted:?}"));
    assert_eq!(Color::from_str(&text).unwrap(), c);
}

#[test]
fn hex() {
    for (channels, long, short) in [
        ([17, 34, 51, 255], "#112233", "#123"),
        ([17, 34, 51, 68], "#11223344", "#1234"),
        ([17, 34, 51, 128], "#11223380", "#11223380"),
        ([1, 34, 51, 255], "#012233", "#012233"),
        ([255, 0, 171, 255], "#ff00ab", "#ff00ab"),
        ([0, 0, 0, 0], "#00000000", "#0000"),
        ([255, 255, 255, 255], "#ffffff", "#fff"),
    ] {
        let c = color(channels);
        holds(c, c.hex(), long);
        holds(c, c.hex_short(), short);
    }
}

#[test]
fn keywords() {
    for (channels, wanted) in [
        ([255, 0, 0, 255], "red"),
        ([0, 255, 255, 255], "aqua"),
        ([255, 0, 255, 255], "fuchsia"),
        ([128, 128, 128, 255], "gray"),
        ([47, 79, 79, 255], "darkslategray"),
        ([250, 250, 210, 255], "lightgoldenrodyellow"),
    ] {
        let c = color(channels);
        holds(c, c.keyword().unwrap(), wanted);
    }
    for channels in [[1, 2, 3, 255], [255, 0, 0, 254], [0, 0, 0, 0]] {
        assert_eq!(color(channels).keyword(), None);
    }
}

#[test]
fn every_gray_and_every_alpha_reads_back() {
    for n in 0..=255 {
        for c in [color([n, n, n, 255]), color([n, 255 - n, 17, n])] {
            for text in [Some(c.hex()), Some(c.hex_short()), c.keyword()]
                .into_iter()
                .flatten()
            {
                assert_eq!(Color::from_str(&text), Ok(c), "{text}");
            }
        }
    }
}

#[test]
fn a_text_is_padded_like_any_other() {
    assert_eq!(format!("{:>8}|", Color::red().hex_short()), "    #f00|");
}
