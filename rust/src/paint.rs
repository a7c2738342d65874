//! Paints.

use crate::boundary::{self, Room};
use crate::packed::Packed;
use crate::record::{foreign, Record};
use crate::{Color, Error, Refusal};

/// Representation of the fallback part of the [`<paint>`] type.
///
/// Used by the [`Paint`] type.
///
/// [`<paint>`]: https://www.w3.org/TR/SVG2/painting.html#SpecifyingPaint
#[derive(Clone, Copy, PartialEq, Eq, Debug)]
pub enum PaintFallback {
    /// The `none` value.
    None,
    /// The `currentColor` value.
    CurrentColor,
    /// [`<color>`] value.
    ///
    /// [`<color>`]: https://www.w3.org/TR/css-color-3/
    Color(Color),
}

/// Representation of the [`<paint>`] type.
///
/// Doesn't own the data. Use only for parsing.
///
/// `<icccolor>` isn't supported.
///
/// [`<paint>`]: https://www.w3.org/TR/SVG2/painting.html#SpecifyingPaint
///
/// ```
/// use homeludaf::{Paint, PaintFallback, Color};
///
/// let paint = Paint::from_str("url(#gradient) red").unwrap();
/// assert_eq!(paint, Paint::FuncIRI("gradient",
///                                  Some(PaintFallback::Color(Color::red()))));
///
/// let paint = Paint::from_str("inherit").unwrap();
/// assert_eq!(paint, Paint::Inherit);
/// ```
#[derive(Clone, Copy, PartialEq, Eq, Debug)]
pub enum Paint<'a> {
    /// The `none` value.
    None,
    /// The `inherit` value.
    Inherit,
    /// The `currentColor` value.
    CurrentColor,
    /// [`<color>`] value.
    ///
    /// [`<color>`]: https://www.w3.org/TR/css-color-3/
    Color(Color),
    /// [`<FuncIRI>`] value with an optional fallback.
    ///
    /// [`<FuncIRI>`]: https://www.w3.org/TR/SVG11/types.html#DataTypeFuncIRI
    FuncIRI(&'a str, Option<PaintFallback>),
    /// The `context-fill` value.
    ContextFill,
    /// The `context-stroke` value.
    ContextStroke,
}

impl<'a> Paint<'a> {
    /// Parses a `Paint` from a string.
    ///
    /// Not by the `FromStr` trait, which wants an owned value.
    #[allow(clippy::should_implement_trait)]
    #[inline]
    pub fn from_str(text: &'a str) -> Result<Self, Error> {
        Self::parse(text, Error::of)
    }

    /// Parses as `from_str` does; a refusal comes whole.
    ///
    /// Of a plain colour's refusals a paint tells those of numbers outside the domain; any other is a 5,
    /// whose stretch is empty at the place where the colour was refused.
    ///
    /// ```
    /// use homeludaf::Paint;
    ///
    /// assert_eq!(Paint::read("none"), Ok(Paint::None));
    /// for (text, number) in [("rgb(", 5), ("rgb(1e23,0,0)", 24), ("url(#a) rgb(", 22)] {
    ///     assert_eq!(Paint::read(text).unwrap_err().number, number);
    /// }
    /// assert_eq!(Paint::read(" red)").unwrap_err().stretch(), 3..3);
    /// ```
    #[inline]
    pub fn read(text: &'a str) -> Result<Self, Refusal> {
        Self::parse(text, Refusal::of)
    }

    #[inline(always)]
    fn parse<E>(text: &'a str, refused: impl Fn(&Record, &str) -> E) -> Result<Self, E> {
        match boundary::paint(text, &mut Room::new()) {
            Ok(value) => Ok(Paint::of(value, text)),
            Err(record) => Err(refused(record, text)),
        }
    }

    #[inline(always)]
    fn of(value: Packed, text: &'a str) -> Self {
        match value.kind() {
            1 => Paint::None,
            2 => Paint::Inherit,
            3 => Paint::CurrentColor,
            4 => Paint::ContextFill,
            5 => Paint::ContextStroke,
            6 => Paint::Color(value.color()),
            7 => Paint::FuncIRI(value.link(text), PaintFallback::of(value)),
            other => foreign("paint", other),
        }
    }
}

impl PaintFallback {
    #[inline(always)]
    fn of(value: Packed) -> Option<Self> {
        match value.fallback() {
            0 => None,
            1 => Some(PaintFallback::None),
            2 => Some(PaintFallback::CurrentColor),
            _ => Some(PaintFallback::Color(value.color())),
        }
    }
}
