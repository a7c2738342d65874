//! The reading that a first line asks for: document 02, P9.

use homeludaf::Color;

#[test]
fn by_the_reading_that_is_asked_for() {
    for text in [
        "",
        "red",
        "red\r",
        "#123",
        "#1234",
        "#12345",
        "red)",
        "rgb(20%,50,20%)",
        "rgb(1.0,2,3)",
        "rgb(",
        "rgb(1e23,0,0)",
        "\u{e9}",
        "read=loose",
        "read=strict",
    ] {
        for after in ["", "\n", "\nblue\n"] {
            assert_eq!(
                Color::read_asked(&format!("read=loose\n{text}{after}")),
                Color::read(text),
                "{text:?}"
            );
            assert_eq!(
                Color::read_asked(&format!("read=strict\n{text}{after}")),
                Color::read_strict(text),
                "{text:?}"
            );
            if !text.starts_with("read=") {
                assert_eq!(
                    Color::read_asked(&format!("{text}{after}")),
                    Color::read_strict(text),
                    "{text:?}"
                );
            }
        }
    }
}

#[test]
fn another_word_is_no_colour() {
    for first in [
        "read=",
        "read=Loose",
        "READ=loose",
        "read=loose ",
        " read=loose",
        "read=loose\r",
        "read=stric",
        "read=\u{e9}",
    ] {
        let refusal = Color::read_asked(&format!("{first}\nred")).expect_err(first);
        let at = first.find('=').unwrap();
        assert_eq!(
            (refusal.number, refusal.position, refusal.stretch()),
            (5, 0, at..at),
            "{first:?}"
        );
    }
}

#[test]
fn no_line_after_it() {
    for input in [
        "read=loose",
        "read=strict",
        "read=loose\n",
        "read=strict\n\nred",
    ] {
        assert_eq!(Color::read_asked(input).unwrap_err().number, 4, "{input:?}");
    }
}

#[test]
fn the_limit_is_the_text_s_own() {
    let wide = " ".repeat(4096);
    assert_eq!(
        Color::read_asked(&format!("read=strict\n{wide}"))
            .unwrap_err()
            .number,
        4
    );
    assert_eq!(
        Color::read_asked(&format!("read=strict\n{wide} "))
            .unwrap_err()
            .number,
        1
    );
}
