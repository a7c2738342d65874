//! Colours.

use std::fmt;
use std::ops::Deref;

use crate::boundary::{self, Room, Text};
use crate::record::{Record, RESULT};
use crate::{Error, Refusal};

/// Representation of the [`<color>`] type.
///
/// [`<color>`]: https://www.w3.org/TR/css-color-3/
#[derive(Clone, Copy, PartialEq, Eq, Debug)]
#[allow(missing_docs)]
pub struct Color {
    pub red: u8,
    pub green: u8,
    pub blue: u8,
    pub alpha: u8,
}

impl Color {
    /// Constructs a new `Color` from RGB values.
    #[inline]
    pub fn new_rgb(red: u8, green: u8, blue: u8) -> Self {
        Self::new_rgba(red, green, blue, 255)
    }

    /// Constructs a new `Color` from RGBA values.
    #[inline]
    pub fn new_rgba(red: u8, green: u8, blue: u8, alpha: u8) -> Self {
        Self {
            red,
            green,
            blue,
            alpha,
        }
    }

    /// Constructs a new `Color` set to black.
    #[inline]
    pub fn black() -> Self {
        Self::new_rgb(0, 0, 0)
    }

    /// Constructs a new `Color` set to white.
    #[inline]
    pub fn white() -> Self {
        Self::new_rgb(255, 255, 255)
    }

    /// Constructs a new `Color` set to gray.
    #[inline]
    pub fn gray() -> Self {
        Self::new_rgb(128, 128, 128)
    }

    /// Constructs a new `Color` set to red.
    #[inline]
    pub fn red() -> Self {
        Self::new_rgb(255, 0, 0)
    }

    /// Constructs a new `Color` set to green.
    #[inline]
    pub fn green() -> Self {
        Self::new_rgb(0, 128, 0)
    }

    /// Constructs a new `Color` set to blue.
    #[inline]
    pub fn blue() -> Self {
        Self::new_rgb(0, 0, 255)
    }

    /// Parses as `from_str` does; a refusal comes whole.
    ///
    /// ```
    /// use homeludaf::Color;
    ///
    /// assert_eq!(Color::read("red"), Ok(Color::red()));
    /// let refusal = Color::read("rgba(0,0,0,50%)").unwrap_err();
    /// assert_eq!((refusal.number, refusal.position), (7, 14));
    /// assert_eq!((refusal.found, refusal.wanted), (b'%', b')'));
    /// assert_eq!(refusal.stretch(), 13..14);
    /// ```
    #[inline]
    pub fn read(text: &str) -> Result<Self, Refusal> {
        Self::parse(text, Refusal::of)
    }

    /// Parses by the house rules for new artwork: a colour as [CSS Color 3] writes it.
    ///
    /// That is `#` and three or six hex digits; `rgb()` of three whole numbers or three percentages;
    /// `hsl()` of a number and two percentages; `rgba()` and `hsla()` with a number for alpha besides,
    /// always; the 147 keywords and `transparent`. Letter case is ignored. One comma stands between
    /// values; spaces may stand around values and around the whole. A number has no exponent; outside
    /// its range it is clipped and not refused.
    ///
    /// What it accepts, [`Color::read`] accepts with the same channels. What `read` refuses, it refuses
    /// by the same [`Refusal`]. What `read` accepts and the house rules do not is refused by 18, at the
    /// first character, or the end, at which no such text, however long, can go on.
    ///
    /// ```
    /// use homeludaf::Color;
    ///
    /// assert_eq!(Color::read_strict(" RGB( 1, 2, 300 )"), Ok(Color::new_rgb(1, 2, 255)));
    ///
    /// // `rgb(1.0%` could have gone on; with a comma there is no such text.
    /// let refusal = Color::read_strict("rgb(1.0,2,3)").unwrap_err();
    /// assert_eq!((refusal.number, refusal.position, refusal.stretch()), (18, 8, 7..7));
    /// assert_eq!(
    ///     refusal.to_string(),
    ///     "the colour is not written by the house rules: it cannot go on so at character 8"
    /// );
    ///
    /// // Four digits could have become six.
    /// assert_eq!(Color::read_strict("#1234").unwrap_err().position, 6);
    /// assert_eq!(Color::read("#1234"), Ok(Color::new_rgba(17, 34, 51, 68)));
    /// ```
    ///
    /// svgtypes has no such reading, so there is no name of its to keep: this one is `read`'s, whose
    /// refusals it has. There is none with svgtypes' [`Error`], which has no room for an 18.
    ///
    /// [CSS Color 3]: https://www.w3.org/TR/css-color-3/
    pub fn read_strict(text: &str) -> Result<Self, Refusal> {
        Self::recorded(text, boundary::strict(text, &mut Room::new()))
    }

    /// Parses what the program `swatch` reads: a colour by the reading that a first line asks for.
    ///
    /// The first line is the input up to a line feed, or all of it. Where it is `read=loose` or
    /// `read=strict`, to the letter and without a return, the text is the next line, the empty one where
    /// there is none, by [`Color::read`] or [`Color::read_strict`]. Any other first line is the text, by
    /// `read_strict`. No line after the text is looked at. A refusal counts in the text's own line.
    ///
    /// ```
    /// use homeludaf::Color;
    ///
    /// let text = "rgb(20%,50,20%)";
    /// assert_eq!(Color::read_asked(text).unwrap_err().position, 11);
    /// assert_eq!(Color::read_asked(&format!("read=loose\n{text}")), Color::read(text));
    /// ```
    pub fn read_asked(input: &str) -> Result<Self, Refusal> {
        Self::recorded(input, boundary::asked(input, &mut Room::new()))
    }

    fn recorded(text: &str, record: &Record) -> Result<Self, Refusal> {
        if record.is_refused() {
            return Err(Refusal::of(record, text));
        }
        Ok(record.color(RESULT))
    }

    #[inline(always)]
    fn parse<E>(text: &str, refused: impl Fn(&Record, &str) -> E) -> Result<Self, E> {
        match boundary::color(text, &mut Room::new()) {
            Ok(value) => Ok(value.color()),
            Err(record) => Err(refused(record, text)),
        }
    }

    /// The colour as `#` and lower-case hex digits: six if alpha is 255, else eight. It reads back
    /// as the same colour.
    ///
    /// ```
    /// use homeludaf::Color;
    ///
    /// assert_eq!(Color::new_rgb(17, 34, 51).hex(), "#112233");
    /// assert_eq!(Color::new_rgba(17, 34, 51, 128).hex().to_string(), "#11223380");
    /// ```
    pub fn hex(self) -> ColorText {
        ColorText(Text::hex(self, false).expect("there is room for nine bytes"))
    }

    /// The same in three or four digits, where every channel, alpha too, is a doubled digit; else as
    /// by [`Color::hex`].
    ///
    /// ```
    /// use homeludaf::Color;
    ///
    /// assert_eq!(Color::new_rgb(17, 34, 51).hex_short(), "#123");
    /// assert_eq!(Color::new_rgba(17, 34, 51, 68).hex_short(), "#1234");
    /// assert_eq!(Color::new_rgba(17, 34, 51, 128).hex_short(), "#11223380");
    /// ```
    pub fn hex_short(self) -> ColorText {
        ColorText(Text::hex(self, true).expect("there is room for nine bytes"))
    }

    /// The first keyword in alphabetical order that has the channels, for alpha 255 alone; `None`
    /// where there is none.
    ///
    /// ```
    /// use homeludaf::Color;
    ///
    /// assert_eq!(Color::new_rgb(0, 255, 255).keyword().unwrap(), "aqua");
    /// assert!(Color::new_rgb(1, 2, 3).keyword().is_none());
    /// assert!(Color::new_rgba(0, 0, 0, 0).keyword().is_none());
    /// ```
    pub fn keyword(self) -> Option<ColorText> {
        Text::keyword(self).map(ColorText)
    }
}

/// A colour as text, held in the value itself: [`Color::hex`] and the like give it.
#[derive(Clone, Copy, PartialEq, Eq, Hash)]
pub struct ColorText(Text);

impl ColorText {
    /// The text.
    #[inline]
    pub fn as_str(&self) -> &str {
        self.0.as_str()
    }
}

impl Deref for ColorText {
    type Target = str;

    #[inline]
    fn deref(&self) -> &str {
        self.as_str()
    }
}

impl AsRef<str> for ColorText {
    #[inline]
    fn as_ref(&self) -> &str {
        self.as_str()
    }
}

impl fmt::Display for ColorText {
    fn fmt(&self, f: &mut fmt::Formatter<'_>) -> fmt::Result {
        f.pad(self)
    }
}

impl fmt::Debug for ColorText {
    fn fmt(&self, f: &mut fmt::Formatter<'_>) -> fmt::Result {
        fmt::Debug::fmt(self.as_str(), f)
    }
}

impl PartialEq<str> for ColorText {
    fn eq(&self, other: &str) -> bool {
        self.as_str() == other
    }
}

impl PartialEq<&str> for ColorText {
    fn eq(&self, other: &&str) -> bool {
        self.as_str() == *other
    }
}

impl std::str::FromStr for Color {
    type Err = Error;

    /// Parses a [CSS3](https://www.w3.org/TR/css-color-3/) colour, with or without alpha; also hex
    /// notation of four and eight digits.
    #[inline]
    fn from_str(text: &str) -> Result<Self, Error> {
        Self::parse(text, Error::of)
    }
}
