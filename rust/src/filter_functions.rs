//! Lists of filter values.

use std::fmt;

use crate::boundary::Ahead;
use crate::list::Walk;
use crate::record::{foreign, Record, RESULT};
use crate::{Angle, Color, Error, Length, Refusal};

/// Representation of the [`<filter-function>`] | [`<url>`] type.
///
/// Note that [`Length`] values in this enum do not contain % values.
/// They are disallowed by the spec.
///
/// [`<filter-function>`]: https://www.w3.org/TR/filter-effects-1/#filter-functions
/// [`<url>`]: https://www.w3.org/TR/filter-effects-1/#typedef-filter-url
#[derive(Clone, Copy, PartialEq, Debug)]
#[allow(missing_docs)]
pub enum FilterValue<'a> {
    /// Cannot be negative and/or have a percentage units.
    Blur(Length),
    DropShadow {
        /// `currentColor` will be resolved as `None`,
        /// because it should be processed in the same way.
        color: Option<Color>,
        /// Cannot have a percentage units.
        dx: Length,
        /// Cannot have a percentage units.
        dy: Length,
        /// Cannot be negative and/or have a percentage units.
        std_dev: Length,
    },
    /// Normalized value. Cannot be negative.
    Brightness(f64),
    /// Normalized value. Cannot be negative.
    Contrast(f64),
    /// Normalized value. Cannot be negative.
    Grayscale(f64),
    HueRotate(Angle),
    /// Normalized value. Cannot be negative.
    Invert(f64),
    /// Normalized value. Cannot be negative.
    Opacity(f64),
    /// Normalized value. Cannot be negative.
    Sepia(f64),
    /// Normalized value. Cannot be negative.
    Saturate(f64),
    /// Cannot be empty.
    Url(&'a str),
}

// A filter value's entries: its kind, what it holds, and a shadow's further parts.
const KIND: usize = RESULT;
const HELD: usize = RESULT + 1;
const SHADOW_DY: usize = RESULT + 3;
const SHADOW_DEVIATION: usize = RESULT + 5;
const SHADOW_COLORED: usize = RESULT + 7;
const SHADOW_COLOR: usize = RESULT + 8;

impl<'a> FilterValue<'a> {
    #[inline]
    fn of(record: &Record, text: &'a str) -> Self {
        match record.kind(KIND) {
            1 => FilterValue::Blur(record.length(HELD)),
            2 => FilterValue::DropShadow {
                color: (record.kind(SHADOW_COLORED) == 1).then(|| record.color(SHADOW_COLOR)),
                dx: record.length(HELD),
                dy: record.length(SHADOW_DY),
                std_dev: record.length(SHADOW_DEVIATION),
            },
            3 => FilterValue::Brightness(record.float(HELD)),
            4 => FilterValue::Contrast(record.float(HELD)),
            5 => FilterValue::Grayscale(record.float(HELD)),
            6 => FilterValue::HueRotate(record.angle(HELD)),
            7 => FilterValue::Invert(record.float(HELD)),
            8 => FilterValue::Opacity(record.float(HELD)),
            9 => FilterValue::Sepia(record.float(HELD)),
            10 => FilterValue::Saturate(record.float(HELD)),
            11 => FilterValue::Url(record.part(HELD, text)),
            other => foreign("filter value", other),
        }
    }
}

/// A list of possible [`FilterValueListParser`] errors.
#[derive(Debug)]
pub enum FilterValueListParserError {
    /// Lengths with percentage values are not allowed.
    PercentageValue(usize),

    /// Some values cannot be negative.
    NegativeValue(usize),

    /// An invalid angle value.
    InvalidAngle(usize),

    /// Drop shadow offset values must be set.
    MissingDropShadowOffset(usize),

    /// Usually indicates an empty url.
    InvalidUrl(usize),

    /// Other errors.
    StreamErrors(Error),
}

impl FilterValueListParserError {
    /// What the error keeps of its refusal: see [`Error::refusal`].
    pub fn refusal(&self) -> Refusal {
        match *self {
            Self::PercentageValue(position) => Refusal::at(11, position),
            Self::NegativeValue(position) => Refusal::at(12, position),
            Self::InvalidAngle(position) => Refusal::at(13, position),
            Self::MissingDropShadowOffset(position) => Refusal::at(14, position),
            Self::InvalidUrl(position) => Refusal::at(15, position),
            Self::StreamErrors(ref e) => e.refusal(),
        }
    }

    /// The error of a refused record. Out of line: what reads values is smaller without it.
    #[cold]
    #[inline(never)]
    fn of(record: &Record, text: &str) -> Self {
        let position = record.position();
        match record.number() {
            11 => Self::PercentageValue(position),
            12 => Self::NegativeValue(position),
            13 => Self::InvalidAngle(position),
            14 => Self::MissingDropShadowOffset(position),
            15 => Self::InvalidUrl(position),
            _ => Self::StreamErrors(Error::of(record, text)),
        }
    }
}

impl From<Error> for FilterValueListParserError {
    fn from(e: Error) -> Self {
        Self::StreamErrors(e)
    }
}

impl fmt::Display for FilterValueListParserError {
    fn fmt(&self, f: &mut fmt::Formatter<'_>) -> fmt::Result {
        match *self {
            Self::PercentageValue(pos) => {
                write!(f, "a percentage value detected at position {pos}")
            }
            Self::NegativeValue(pos) => {
                write!(f, "a negative value detected at position {pos}")
            }
            Self::InvalidAngle(pos) => {
                write!(f, "an invalid angle at position {pos}")
            }
            Self::MissingDropShadowOffset(pos) => {
                write!(
                    f,
                    "drop-shadow offset values are expected at position {pos}"
                )
            }
            Self::InvalidUrl(pos) => {
                write!(f, "an invalid url at position {pos}")
            }
            Self::StreamErrors(ref e) => {
                write!(f, "{e}")
            }
        }
    }
}

impl std::error::Error for FilterValueListParserError {
    fn description(&self) -> &str {
        "filter-value-list parsing error"
    }
}

/// A pull-based [`<filter-value-list>`] parser. After an error the list has ended.
///
/// When value is set to `none`, the parser will return `None` immediately.
/// Meaning that an empty string and `none` will produce the same results.
///
/// ```
/// use homeludaf::{FilterValue, FilterValueListParser, Length, LengthUnit};
///
/// let mut p = FilterValueListParser::from("blur(5px) url(#glow)");
/// assert_eq!(p.next().unwrap().unwrap(), FilterValue::Blur(Length::new(5.0, LengthUnit::Px)));
/// assert_eq!(p.next().unwrap().unwrap(), FilterValue::Url("glow"));
/// assert!(p.next().is_none());
/// ```
///
/// [`<filter-value-list>`]: https://www.w3.org/TR/filter-effects-1/#typedef-filter-value-list
#[derive(Clone, Copy, PartialEq, Eq, Debug)]
pub struct FilterValueListParser<'a>(Walk<'a>);

impl<'a> FilterValueListParser<'a> {
    /// The same values; a refusal comes whole.
    ///
    /// ```
    /// use homeludaf::{FilterValue, FilterValueListParser};
    ///
    /// let mut list = FilterValueListParser::read("url(#a) blur(1e23)");
    /// assert_eq!(list.next(), Some(Ok(FilterValue::Url("a"))));
    /// let refusal = list.next().unwrap().unwrap_err();
    /// assert_eq!((refusal.number, refusal.position, refusal.stretch()), (24, 14, 13..17));
    /// assert_eq!(list.next(), None);
    /// ```
    #[inline]
    pub fn read(text: &'a str) -> FilterValueListReader<'a> {
        FilterValueListReader(Walk::new(text))
    }
}

impl<'a> From<&'a str> for FilterValueListParser<'a> {
    #[inline]
    fn from(text: &'a str) -> Self {
        FilterValueListParser(Walk::new(text))
    }
}

impl<'a> Iterator for FilterValueListParser<'a> {
    type Item = Result<FilterValue<'a>, FilterValueListParserError>;

    #[inline]
    fn next(&mut self) -> Option<Self::Item> {
        self.0.next(
            Ahead::filters,
            FilterValue::of,
            FilterValueListParserError::of,
        )
    }
}

/// A [`FilterValueListParser`] that tells its refusal whole: what [`FilterValueListParser::read`] gives.
#[derive(Clone, Copy, PartialEq, Eq, Debug)]
pub struct FilterValueListReader<'a>(Walk<'a>);

impl<'a> Iterator for FilterValueListReader<'a> {
    type Item = Result<FilterValue<'a>, Refusal>;

    #[inline]
    fn next(&mut self) -> Option<Self::Item> {
        self.0.next(Ahead::filters, FilterValue::of, Refusal::of)
    }
}
