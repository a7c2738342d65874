//! A seeded generator of texts: forms that the readers know, often damaged, at times very long.

mod names;

use names::NAMES;

/// What reads a text.
#[derive(Clone, Copy, PartialEq, Eq, Debug)]
pub enum Reader {
    Color,
    Length,
    Lengths,
    Angle,
    Iri,
    FuncIri,
    Paint,
    Filters,
}

pub const READERS: [Reader; 8] = [
    Reader::Color,
    Reader::Length,
    Reader::Lengths,
    Reader::Angle,
    Reader::Iri,
    Reader::FuncIri,
    Reader::Paint,
    Reader::Filters,
];

/// Single characters put in by damage: what the readers look for, other spaces, wider characters.
const DAMAGE: &[&str] = &[
    " ", "\t", "\n", "\r", "\x0b", "\x0c", "\0", "(", ")", ",", "%", "#", "'", "\"", "+", "-", ".",
    "_", "e", "E", "m", "x", "0", "1", "9", "a", "f", "F", "g", "z", "A", "/", "\\", ";", "\u{85}",
    "\u{a0}", "é", "ß", "\u{1680}", "\u{2003}", "\u{2028}", "€", "\u{3000}", "\u{feff}", "😀",
];

const FUNCTIONS: &[&str] = &[
    "brightness",
    "contrast",
    "grayscale",
    "invert",
    "opacity",
    "saturate",
    "sepia",
];

/// Splitmix64, and the texts made from it.
pub struct Generator(u64);

impl Generator {
    pub fn new(seed: u64) -> Self {
        Generator(seed)
    }

    /// The next case: a reader, and a text that is mostly of its kind.
    pub fn case(&mut self, text: &mut String) -> Reader {
        text.clear();
        let reader = self.pick(&READERS);
        let form = if self.chance(6) {
            self.pick(&READERS)
        } else {
            reader
        };
        self.form(form, text);
        if self.below(2000) == 0 {
            self.stretch(text);
        }
        if self.chance(30) {
            for _ in 0..1 + self.below(3) {
                self.damage(text);
            }
        }
        reader
    }

    fn next(&mut self) -> u64 {
        self.0 = self.0.wrapping_add(0x9e37_79b9_7f4a_7c15);
        let mut z = self.0;
        z = (z ^ (z >> 30)).wrapping_mul(0xbf58_476d_1ce4_e5b9);
        z = (z ^ (z >> 27)).wrapping_mul(0x94d0_49bb_1331_11eb);
        z ^ (z >> 31)
    }

    fn below(&mut self, n: usize) -> usize {
        (self.next() % n as u64) as usize
    }

    fn chance(&mut self, percent: usize) -> bool {
        self.below(100) < percent
    }

    fn pick<T: Copy>(&mut self, of: &[T]) -> T {
        of[self.below(of.len())]
    }

    fn form(&mut self, form: Reader, out: &mut String) {
        match form {
            Reader::Color => {
                self.spaces(out);
                self.color(out);
                self.spaces(out);
            }
            Reader::Length => self.length(out),
            Reader::Lengths => self.list(out, Self::length, &[" ", ",", ", ", " , ", "", "\t"]),
            Reader::Angle => self.angle(out),
            Reader::Iri => {
                self.spaces(out);
                out.push('#');
                self.link(out);
                self.spaces(out);
            }
            Reader::FuncIri => {
                self.spaces(out);
                self.func_iri(out);
                self.spaces(out);
            }
            Reader::Paint => self.paint(out),
            Reader::Filters => self.list(out, Self::filter, &[" ", "", "  ", "\n", ", "]),
        }
    }

    fn spaces(&mut self, out: &mut String) {
        match self.below(60) {
            0..=38 => {}
            39..=54 => out.push(' '),
            55 | 56 => out.push_str("\t "),
            57 | 58 => out.push_str("\r\n"),
            // Spaces that trimming takes and the readers do not, and a longer run.
            _ => out.push_str(self.pick(&["\u{a0}", "\u{2003}", "\x0c", "   \t"])),
        }
    }

    fn digits(&mut self, most: usize, out: &mut String) {
        for _ in 0..1 + self.below(most) {
            out.push(char::from(b'0' + self.below(10) as u8));
        }
    }

    fn number(&mut self, out: &mut String) {
        match self.below(50) {
            // What begins like a number and is none, or none of the domain.
            0 => out.push_str(self.pick(&[
                "1.", ".", "-", "+", "1e", "1e+", "e5", "--1", "-.", "1e400", "inf", "NaN", "0e23",
                "1.e3",
            ])),
            // At the domain's edges.
            1 => out.push_str(self.pick(&[
                "9007199254740991",
                "9007199254740992",
                "900719925474099.1",
                "1e22",
                "1e23",
                "1e-22",
                "1e-23",
                "0.0000000000000000000001",
                "-0",
                "-0.0",
            ])),
            2 => self.digits(18, out),
            _ => {
                out.push_str(self.pick(&["", "", "", "", "", "", "-", "+"]));
                let whole = self.chance(90);
                if whole {
                    match self.below(4) {
                        0 => self.digits(7, out),
                        1 => out.push('0'),
                        _ => out.push_str(&self.below(400).to_string()),
                    }
                }
                if !whole || self.chance(30) {
                    out.push('.');
                    self.digits(6, out);
                }
                if self.chance(5) {
                    out.push_str(self.pick(&["e", "E", "e-", "e+", "E-"]));
                    self.digits(2, out);
                }
            }
        }
    }

    fn length(&mut self, out: &mut String) {
        if self.chance(15) {
            self.spaces(out);
        }
        self.number(out);
        out.push_str(self.pick(&[
            "", "", "", "%", "em", "ex", "px", "px", "in", "cm", "mm", "pt", "pc", "Px", "e", "p",
        ]));
    }

    fn angle(&mut self, out: &mut String) {
        if self.chance(15) {
            self.spaces(out);
        }
        self.number(out);
        out.push_str(self.pick(&[
            "", "deg", "deg", "grad", "rad", "turn", "turns", "DEG", "de",
        ]));
    }

    /// A word with some letters in upper case.
    fn word(&mut self, word: &str, out: &mut String) {
        let share = self.pick(&[0, 0, 0, 20, 100]);
        for c in word.chars() {
            let c = if self.chance(share) {
                c.to_ascii_uppercase()
            } else {
                c
            };
            out.push(c);
        }
    }

    fn color(&mut self, out: &mut String) {
        match self.below(4) {
            0 => {
                out.push('#');
                let count = self.pick(&[3, 3, 3, 4, 4, 6, 6, 6, 6, 8, 8, 8, 0, 2, 5, 7, 12]);
                for _ in 0..count {
                    let digit = self.pick(b"0123456789abcdefABCDEF");
                    out.push(char::from(digit));
                }
            }
            1 => {
                let name = if self.chance(92) {
                    self.pick(&NAMES)
                } else {
                    self.pick(&[
                        "transparent",
                        "currentColor",
                        "none",
                        "rgb",
                        "reds",
                        "",
                        "icc-color",
                    ])
                };
                self.word(name, out);
            }
            2 => self.numbered(&["rgb", "rgba"], &["", "", "%"], out),
            _ => self.numbered(&["hsl", "hsla"], &["%", "%", ""], out),
        }
    }

    /// A colour by numbers in brackets, three or four of them, seldom another count.
    fn numbered(&mut self, names: &[&str], marks: &[&str], out: &mut String) {
        let name = self.pick(names);
        self.word(name, out);
        out.push('(');
        let count = self.pick(&[3, 3, 3, 3, 3, 3, 4, 4, 4, 4, 4, 2, 5, 0]);
        let mark = self.pick(marks);
        for i in 0..count {
            if i > 0 {
                out.push_str(self.pick(&[",", ", ", " ", " , ", ",", ",,"]));
            }
            self.spaces(out);
            match self.below(6) {
                0 => out.push_str(&format!("{}.5", self.below(300))),
                1 | 2 => self.number(out),
                3 => out.push_str(&format!("0.{}", self.below(1000))),
                _ => out.push_str(&self.below(400).to_string()),
            }
            let hue = i == 0 && name.starts_with('h');
            if i < 3 && !hue && !self.chance(5) {
                out.push_str(mark);
            } else if self.chance(5) {
                out.push('%');
            }
        }
        self.spaces(out);
        out.push(')');
    }

    fn link(&mut self, out: &mut String) {
        for _ in 0..self.below(9) {
            out.push_str(self.pick(&[
                "a", "b", "g", "1", "-", "_", ".", "lin", "é", "€", "😀", "\t", "\u{a0}", "'",
                "\"", "#", "(",
            ]));
        }
    }

    fn func_iri(&mut self, out: &mut String) {
        out.push_str(if self.chance(95) {
            "url("
        } else {
            self.pick(&["URL(", "url (", "u", "ur("])
        });
        self.spaces(out);
        let quote = self.pick(&["", "", "'", "\""]);
        out.push_str(quote);
        self.spaces(out);
        if !self.chance(4) {
            out.push('#');
        }
        if self.chance(70) {
            out.push_str(self.pick(&["a", "grad", "grad-1", "é1", "x y"]));
        } else {
            self.link(out);
        }
        self.spaces(out);
        out.push_str(quote);
        self.spaces(out);
        out.push(')');
    }

    fn paint(&mut self, out: &mut String) {
        self.spaces(out);
        match self.below(5) {
            0 => out.push_str(self.pick(&[
                "none",
                "inherit",
                "currentColor",
                "context-fill",
                "context-stroke",
                "None",
                "currentcolor",
            ])),
            1 | 2 => self.color(out),
            _ => {
                self.func_iri(out);
                self.spaces(out);
                match self.below(6) {
                    0 => {}
                    1 => out.push_str(self.pick(&[
                        "none",
                        "currentColor",
                        "inherit",
                        "none ",
                        "NONE",
                    ])),
                    _ => self.color(out),
                }
            }
        }
        self.spaces(out);
    }

    fn filter(&mut self, out: &mut String) {
        let plain = self.pick(FUNCTIONS);
        let name = match self.below(8) {
            0 => "blur",
            1 | 2 => "drop-shadow",
            3 => "hue-rotate",
            4 => "url",
            5 if self.chance(10) => self.pick(&["none", "BLUR", "blurs", "", "noneblur"]),
            _ => plain,
        };
        out.push_str(name);
        if name == "none" {
            return;
        }
        self.spaces(out);
        out.push('(');
        self.spaces(out);
        if self.chance(90) {
            match name {
                "blur" => self.length(out),
                "drop-shadow" => self.shadow(out),
                "hue-rotate" => self.angle(out),
                "url" => {
                    out.push('#');
                    self.link(out);
                }
                _ => {
                    self.number(out);
                    out.push_str(self.pick(&["", "", "%", "%", "px"]));
                }
            }
        }
        self.spaces(out);
        out.push(')');
    }

    /// A shadow's parts; the colour before, after, at both ends or nowhere.
    fn shadow(&mut self, out: &mut String) {
        let color = self.below(5);
        if color == 0 || color == 1 {
            self.shadow_color(out);
            out.push_str(self.pick(&[" ", " ", "", "\t"]));
        }
        for i in 0..self.pick(&[2, 2, 3, 3, 3, 1, 4]) {
            if i > 0 {
                out.push_str(self.pick(&[" ", " ", "  ", "\n", ","]));
            }
            self.length(out);
        }
        if color == 1 || color == 2 || color == 3 {
            out.push_str(self.pick(&[" ", " ", "", "\t"]));
            self.shadow_color(out);
        }
    }

    fn shadow_color(&mut self, out: &mut String) {
        if self.chance(25) {
            out.push_str("currentColor");
        } else {
            self.color(out);
        }
    }

    fn list(&mut self, out: &mut String, one: fn(&mut Self, &mut String), between: &[&str]) {
        let count = if self.chance(3) {
            self.below(40)
        } else {
            self.below(5)
        };
        if self.chance(10) {
            self.spaces(out);
        }
        for i in 0..count {
            if i > 0 {
                out.push_str(self.pick(between));
            }
            one(self, out);
        }
        self.spaces(out);
    }

    /// Brings a text near the longest that is read, or past it.
    fn stretch(&mut self, text: &mut String) {
        let wanted = 4090 + self.below(10);
        let again = if self.chance(50) {
            text.clone()
        } else {
            " ".to_owned()
        };
        while !again.is_empty() && text.len() + again.len() <= wanted {
            text.push_str(&again);
        }
        while text.len() < wanted {
            text.push(' ');
        }
    }

    /// One character put in, taken out or exchanged, or the end cut off.
    fn damage(&mut self, text: &mut String) {
        let mut place = self.below(text.len() + 1);
        while !text.is_char_boundary(place) {
            place -= 1;
        }
        let piece = self.pick(DAMAGE);
        match self.below(8) {
            0..=2 => text.insert_str(place, piece),
            3 | 4 if place < text.len() => {
                text.remove(place);
            }
            5 | 6 if place < text.len() => {
                text.remove(place);
                text.insert_str(place, piece);
            }
            _ => text.truncate(place),
        }
    }
}
