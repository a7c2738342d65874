//! Lengths and lists of lengths.

use crate::boundary::{self, Ahead, Room};
use crate::list::Walk;
use crate::record::{Record, RESULT};
use crate::{Error, Refusal, Written};

/// List of all SVG length units.
#[derive(Clone, Copy, PartialEq, Eq, Debug)]
#[allow(missing_docs)]
pub enum LengthUnit {
    None,
    Em,
    Ex,
    Px,
    In,
    Cm,
    Mm,
    Pt,
    Pc,
    Percent,
}

/// Representation of the [`<length>`] type.
///
/// [`<length>`]: https://www.w3.org/TR/SVG2/types.html#InterfaceSVGLength
#[derive(Clone, Copy, PartialEq, Debug)]
#[allow(missing_docs)]
pub struct Length {
    pub number: f64,
    pub unit: LengthUnit,
}

impl Length {
    /// Constructs a new length.
    #[inline]
    pub fn new(number: f64, unit: LengthUnit) -> Self {
        Self { number, unit }
    }

    /// Constructs a new length with `LengthUnit::None`.
    #[inline]
    pub fn new_number(number: f64) -> Self {
        Self::new(number, LengthUnit::None)
    }

    /// Constructs a new length with a zero number.
    ///
    /// Shorthand for: `Length::new(0.0, LengthUnit::None)`.
    #[inline]
    pub fn zero() -> Self {
        Self::new_number(0.0)
    }

    /// Parses as `from_str` does; a refusal comes whole.
    ///
    /// ```
    /// use homeludaf::Length;
    ///
    /// assert_eq!(Length::read("5"), Ok(Length::new_number(5.0)));
    /// for (text, number) in [("x", 9), ("", 22), ("1.", 10), ("9007199254740992", 23), ("1e23", 24)] {
    ///     assert_eq!(Length::read(text).unwrap_err().number, number);
    /// }
    /// ```
    #[inline]
    pub fn read(text: &str) -> Result<Self, Refusal> {
        Self::parse(text, length_of, Refusal::of)
    }

    /// Parses as `read` does, and tells how the number was written: once read, `12` and `12.0` look
    /// alike.
    ///
    /// ```
    /// use homeludaf::Length;
    ///
    /// let [plain, dotted] = ["12%", "12.0%"].map(|text| Length::written(text).unwrap());
    /// assert_eq!(plain.value, dotted.value);
    /// assert_eq!((plain.whole, plain.end), (true, 2));
    /// assert_eq!((dotted.whole, dotted.end), (false, 4));
    /// ```
    #[inline]
    pub fn written(text: &str) -> Result<Written<Self>, Refusal> {
        Self::parse(text, written_of, Refusal::of)
    }

    #[inline(always)]
    fn parse<T, E>(
        text: &str,
        value: impl Fn(&Record, &str) -> T,
        refused: impl Fn(&Record, &str) -> E,
    ) -> Result<T, E> {
        let mut room = Room::new();
        let record = boundary::length(text, &mut room);
        if record.is_refused() {
            return Err(refused(record, text));
        }
        Ok(value(record, text))
    }
}

impl Default for Length {
    #[inline]
    fn default() -> Self {
        Self::zero()
    }
}

impl std::str::FromStr for Length {
    type Err = Error;

    /// Parses a length. Units are lower case; spaces may stand before it and not after it.
    #[inline]
    fn from_str(text: &str) -> Result<Self, Error> {
        Self::parse(text, length_of, Error::of)
    }
}

/// A pull-based [`<list-of-length>`] parser. After an error the list has ended.
///
/// ```
/// use homeludaf::{Length, LengthUnit, LengthListParser};
///
/// let mut p = LengthListParser::from("10px 20% 50mm");
/// assert_eq!(p.next().unwrap().unwrap(), Length::new(10.0, LengthUnit::Px));
/// assert_eq!(p.next().unwrap().unwrap(), Length::new(20.0, LengthUnit::Percent));
/// assert_eq!(p.next().unwrap().unwrap(), Length::new(50.0, LengthUnit::Mm));
/// assert_eq!(p.next().is_none(), true);
/// ```
///
/// [`<list-of-length>`]: https://www.w3.org/TR/SVG2/types.html#InterfaceSVGLengthList
#[derive(Clone, Copy, PartialEq, Eq, Debug)]
pub struct LengthListParser<'a>(Walk<'a>);

impl<'a> LengthListParser<'a> {
    /// The same lengths; a refusal comes whole.
    ///
    /// ```
    /// use homeludaf::{Length, LengthListParser};
    ///
    /// let mut list = LengthListParser::read("10, ");
    /// assert_eq!(list.next(), Some(Ok(Length::new_number(10.0))));
    /// let refusal = list.next().unwrap().unwrap_err();
    /// assert_eq!((refusal.number, refusal.position), (22, 5));
    /// assert_eq!(list.next(), None);
    /// ```
    #[inline]
    pub fn read(text: &'a str) -> LengthListReader<'a> {
        LengthListReader(Walk::new(text))
    }

    /// The same lengths as by `read`, each with how its number was written; the end counts from the
    /// list's first byte.
    ///
    /// ```
    /// use homeludaf::LengthListParser;
    ///
    /// let list = LengthListParser::written("10px, 2.0 1em").map(Result::unwrap);
    /// let told: Vec<(bool, usize)> = list.map(|written| (written.whole, written.end)).collect();
    /// assert_eq!(told, [(true, 2), (false, 9), (true, 11)]);
    /// ```
    #[inline]
    pub fn written(text: &'a str) -> WrittenLengthListReader<'a> {
        WrittenLengthListReader(Walk::new(text))
    }
}

impl<'a> From<&'a str> for LengthListParser<'a> {
    #[inline]
    fn from(text: &'a str) -> Self {
        LengthListParser(Walk::new(text))
    }
}

impl Iterator for LengthListParser<'_> {
    type Item = Result<Length, Error>;

    #[inline]
    fn next(&mut self) -> Option<Self::Item> {
        self.0.next(Ahead::lengths, length_of, Error::of)
    }
}

/// A [`LengthListParser`] that tells its refusal whole: what [`LengthListParser::read`] gives.
#[derive(Clone, Copy, PartialEq, Eq, Debug)]
pub struct LengthListReader<'a>(Walk<'a>);

impl Iterator for LengthListReader<'_> {
    type Item = Result<Length, Refusal>;

    #[inline]
    fn next(&mut self) -> Option<Self::Item> {
        self.0.next(Ahead::lengths, length_of, Refusal::of)
    }
}

/// A [`LengthListReader`] that tells how each number was written: what [`LengthListParser::written`]
/// gives.
#[derive(Clone, Copy, PartialEq, Eq, Debug)]
pub struct WrittenLengthListReader<'a>(Walk<'a>);

impl Iterator for WrittenLengthListReader<'_> {
    type Item = Result<Written<Length>, Refusal>;

    #[inline]
    fn next(&mut self) -> Option<Self::Item> {
        self.0.next(Ahead::lengths, written_of, Refusal::of)
    }
}

/// The first of the two entries, after a length's own, that say how its number was written.
const WRITTEN: usize = RESULT + 2;

#[inline(always)]
fn written_of(record: &Record, text: &str) -> Written<Length> {
    record.written(WRITTEN, length_of(record, text))
}

#[inline(always)]
fn length_of(record: &Record, _: &str) -> Length {
    record.length(RESULT)
}
