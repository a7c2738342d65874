//! Reads the attributes `fill`, `stroke` and `filter` out of what comes on standard input, and
//! prints what each says, or why it is refused, with the refused stretch underlined.
//!
//!     echo '<rect fill="url(#g) rgb(1,2.,3)" filter="blur(2px) sepia(-1)"/>' | cargo run --example cards
//!
//!     fill: refused by 10: the number at character 7 does not keep to the form
//!         url(#g) rgb(1,2.,3)
//!                       ~~
//!
//! A `~` stands under each character of the stretch, a `^` at the place of an empty one. Of a text
//! of several lines the one in which the stretch starts is shown, and what lies of it on that line
//! is underlined. A text that is too long has no stretch.
//!
//! This is no reader of XML: an attribute is a name after a space, `=`, and a text in quotes.

use std::io::{self, Read};

use homeludaf::{FilterValueListParser, FuncIRI, Paint, Refusal};

fn main() -> io::Result<()> {
    let mut input = String::new();
    io::stdin().read_to_string(&mut input)?;
    let mut rest = input.as_str();
    while let Some((name, text, after)) = next_attribute(rest) {
        rest = after;
        match name {
            "fill" | "stroke" => paint(name, text),
            "filter" => filter(name, text),
            _ => {}
        }
    }
    Ok(())
}

/// The next attribute's name and text, and what follows it.
fn next_attribute(input: &str) -> Option<(&str, &str, &str)> {
    let mut from = 0;
    loop {
        let equals = from + input[from..].find('=')?;
        let before = input[..equals].trim_end();
        let name_start = before
            .rfind(|c: char| c.is_whitespace() || c == '\'' || c == '"')
            .map_or(0, |i| {
                i + before[i..].chars().next().map_or(1, char::len_utf8)
            });
        let value = input[equals + 1..].trim_start();
        if let Some(quote) = value.chars().next().filter(|c| matches!(c, '\'' | '"')) {
            let (text, after) = value[1..].split_once(quote)?;
            return Some((&before[name_start..], text, after));
        }
        from = equals + 1;
    }
}

fn paint(name: &str, text: &str) {
    match Paint::read(text) {
        Ok(paint) => println!("{name}: {paint:?}"),
        Err(refusal) => refused(name, text, counted_from(text), refusal),
    }
}

fn filter(name: &str, text: &str) {
    let mut values = 0;
    for value in FilterValueListParser::read(text) {
        match value {
            Ok(value) => println!("{name}: {value:?}"),
            Err(refusal) => refused(name, text, 0, refusal),
        }
        values += 1;
    }
    if values == 0 {
        println!("{name}: nothing");
    }
}

/// The byte from which a paint's refusals count: its fallback's first, or the first of all that
/// trimming leaves.
fn counted_from(text: &str) -> usize {
    let trimmed = text.len() - text.trim_start().len();
    if !text[trimmed..].starts_with("url(") {
        return trimmed;
    }
    // The link ends with the first bracket up to which it reads as a link.
    text.match_indices(')')
        .map(|(bracket, _)| bracket + 1)
        .find(|end| FuncIRI::from_str(&text[trimmed..*end]).is_ok())
        .map_or(trimmed, |end| {
            let fallback = text[end..].trim_start_matches([' ', '\t', '\n', '\r']);
            text.len() - fallback.len()
        })
}

/// Says why, and underlines the stretch, whose places count from the byte `base`.
fn refused(name: &str, text: &str, base: usize, refusal: Refusal) {
    println!("{name}: refused by {}: {refusal}", refusal.number);
    let [line, marks] = underlined(text, base + refusal.from, base + refusal.to);
    println!("    {line}");
    if refusal.number != 1 {
        println!("    {marks}");
    }
}

/// The line of a text in which a stretch starts, and the marks that go under it.
fn underlined(text: &str, from: usize, to: usize) -> [String; 2] {
    let start = text
        .bytes()
        .take(from)
        .rposition(|b| b == b'\n')
        .map_or(0, |i| i + 1);
    let line = text[start..].split('\n').next().unwrap_or_default();
    // A character has one column, however many bytes it has, and is underlined whole: the stretch
    // of a 7 ends with the first of them.
    let columns = |place| {
        let firsts = line.char_indices().map(|(i, _)| start + i);
        firsts.take_while(|first| *first < place).count()
    };
    let before = columns(from);
    let marks = if from == to {
        "^".into()
    } else {
        // The line feed itself, where a stretch starts with it, is underlined after the line.
        "~".repeat((columns(to) - before).max(1))
    };
    // A tab or the like would take more columns than one, or none.
    let shown = line.chars().map(|c| if c.is_control() { ' ' } else { c });
    [shown.collect(), " ".repeat(before) + &marks]
}

#[cfg(test)]
mod tests {
    use super::*;

    #[test]
    fn a_stretch_of_one_line() {
        assert_eq!(underlined("rgb(1.,2,3)", 4, 6), ["rgb(1.,2,3)", "    ~~"]);
        assert_eq!(underlined("red)", 3, 4), ["red)", "   ~"]);
        assert_eq!(underlined("blur(50%)", 0, 8), ["blur(50%)", "~~~~~~~~"]);
    }

    #[test]
    fn an_empty_stretch_is_a_caret() {
        assert_eq!(underlined("", 0, 0), ["", "^"]);
        assert_eq!(underlined("rgb(1,x", 6, 6), ["rgb(1,x", "      ^"]);
        assert_eq!(underlined("#12345", 6, 6), ["#12345", "      ^"]);
    }

    #[test]
    fn a_character_has_one_column() {
        // Before the stretch, in it, and at its end.
        assert_eq!(underlined("url(#é) x", 8, 10), ["url(#é) x", "       ~~"]);
        assert_eq!(underlined("1é€😀 2", 1, 10), ["1é€😀 2", " ~~~"]);
        assert_eq!(underlined("é", 2, 2), ["é", " ^"]);
    }

    #[test]
    fn a_byte_underlines_its_character() {
        assert_eq!(underlined("rgbé1", 3, 4), ["rgbé1", "   ~"]);
        assert_eq!(underlined("😀", 0, 1), ["😀", "~"]);
    }

    #[test]
    fn a_line_of_several() {
        let text = "blur()\n  sepia(-é)\nblur()";
        assert_eq!(underlined(text, 9, 16), ["  sepia(-é)", "  ~~~~~~~"]);
        assert_eq!(underlined(text, 26, 26), ["blur()", "      ^"]);
        assert_eq!(underlined("1\n", 2, 2), ["", "^"]);
    }

    #[test]
    fn a_stretch_over_a_line_feed() {
        assert_eq!(underlined("1 x()\n2", 2, 7), ["1 x()", "  ~~~"]);
        assert_eq!(underlined("1\n2\n3", 2, 5), ["2", "~"]);
        // It starts with the line feed, or is empty before it.
        assert_eq!(underlined("rgb\n(", 3, 4), ["rgb", "   ~"]);
        assert_eq!(underlined("1\n2", 1, 1), ["1", " ^"]);
    }

    #[test]
    fn controls_have_one_column() {
        assert_eq!(underlined("\t1\r\u{85}x", 5, 6), [" 1  x", "    ~"]);
        assert_eq!(underlined("a\tb", 1, 2), ["a b", " ~"]);
    }

    /// A paint counts from what trimming leaves, or from its fallback.
    #[test]
    fn paints() {
        let of_paint = |text| {
            let refusal = Paint::read(text).unwrap_err();
            let base = counted_from(text);
            let [_, marks] = underlined(text, base + refusal.from, base + refusal.to);
            marks
        };
        assert_eq!(of_paint("\u{a0} rgb(1.,2,3)"), "      ~~");
        assert_eq!(of_paint(" red)"), "    ^");
        assert_eq!(of_paint(" url(#é) red) "), "            ~");
        assert_eq!(of_paint("url(#a)\n rgb(1,2.,3) "), "       ~~");
        assert_eq!(of_paint(" url(x) red"), "     ^");
    }
}
