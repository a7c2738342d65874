//! Refusals: why a text is not read, whole.

use std::fmt;
use std::ops::Range;

use crate::record::Record;

/// What a link's function starts with: the only string that a reader here ever wants.
pub(crate) const LINK_START: &str = "url(";

/// Why a text is not read: the whole record of the refusal, which every type's `read` gives.
///
/// | Number | Given when | Stretch |
/// |---|---|---|
/// | 1 | the text has over 4,096 bytes | none, `0..0` |
/// | 4 | the text ends too early: [`Error::UnexpectedEndOfStream`] | empty, at the end |
/// | 5 | the text is no such value: [`Error::InvalidValue`] | empty, where reading stopped |
/// | 6 | something stands after the value: [`Error::UnexpectedData`] | from there to the end |
/// | 7 | another byte was wanted: [`Error::InvalidChar`] | the one byte found |
/// | 8 | `url(` was wanted: [`Error::InvalidString`] | the part found |
/// | 9 | no number starts here, but another byte: [`Error::InvalidNumber`] | empty, here |
/// | 10 | a number does not keep to the form, as `1.` and `-` | the number, up to the first byte that its form cannot take |
/// | 11 | [`FilterValueListParserError::PercentageValue`] | from the filter's name to where reading stopped |
/// | 12 | [`FilterValueListParserError::NegativeValue`] | the same |
/// | 13 | [`FilterValueListParserError::InvalidAngle`] | the same |
/// | 14 | [`FilterValueListParserError::MissingDropShadowOffset`] | the same |
/// | 15 | [`FilterValueListParserError::InvalidUrl`] | the same |
/// | 18 | a colour is not written by the house rules, which [`Color::read_strict`] keeps to | empty, where no such text can go on |
/// | 22 | no number starts here, since the text has ended: [`Error::InvalidNumber`], too | empty, here |
/// | 23 | a number's digits, joined, make more than 9,007,199,254,740,991 | all of the number |
/// | 24 | a number's scale, its exponent less its fraction digits, lies outside -22 to 22 | all of the number |
///
/// 10, 23 and 24 are the numbers outside the domain, which svgtypes has no error for; a number that
/// has several of these troubles is refused by the first. 2 (not UTF-8) and 3 (a bad list place)
/// cannot come from a `&str` and from a list's own places.
///
/// It shows itself in a sentence, and tells the [stretch](Refusal::stretch) of the text that is refused:
///
/// ```
/// use homeludaf::Color;
///
/// let text = "rgb(1.,0,0)";
/// let refusal = Color::read(text).unwrap_err();
/// assert_eq!((refusal.number, refusal.position), (10, 5));
/// assert_eq!(refusal.to_string(), "the number at character 5 does not keep to the form");
/// assert_eq!(text.get(refusal.stretch()), Some("1."));
/// ```
///
/// [`Color::read_strict`]: crate::Color::read_strict
/// [`Error::UnexpectedEndOfStream`]: crate::Error::UnexpectedEndOfStream
/// [`Error::InvalidValue`]: crate::Error::InvalidValue
/// [`Error::UnexpectedData`]: crate::Error::UnexpectedData
/// [`Error::InvalidChar`]: crate::Error::InvalidChar
/// [`Error::InvalidString`]: crate::Error::InvalidString
/// [`Error::InvalidNumber`]: crate::Error::InvalidNumber
/// [`FilterValueListParserError::PercentageValue`]: crate::FilterValueListParserError::PercentageValue
/// [`FilterValueListParserError::NegativeValue`]: crate::FilterValueListParserError::NegativeValue
/// [`FilterValueListParserError::InvalidAngle`]: crate::FilterValueListParserError::InvalidAngle
/// [`FilterValueListParserError::MissingDropShadowOffset`]: crate::FilterValueListParserError::MissingDropShadowOffset
/// [`FilterValueListParserError::InvalidUrl`]: crate::FilterValueListParserError::InvalidUrl
#[derive(Clone, Copy, PartialEq, Eq, Debug)]
#[non_exhaustive]
pub struct Refusal {
    /// The number in the table above; 0 for an error that no reader here gives.
    pub number: u32,
    /// The character, counted from 1, at which the reading was refused; 0 where none is told.
    ///
    /// Of a paint it counts from the first character of the fallback, and for a plain colour from
    /// the first that trimming leaves.
    pub position: usize,
    /// The byte, counted from 0, of the first sequence that is not UTF-8: always 0 for a `&str`.
    pub place: usize,
    /// The byte that was found, of a 7; else 0.
    pub found: u8,
    /// The byte that was wanted, of a 7; else 0.
    pub wanted: u8,
    /// What was found in the place of `url(`, of an 8; else empty.
    pub part: Part,
    /// The byte, counted from 0, at which the refused stretch starts. See [`Refusal::stretch`].
    pub from: usize,
    /// The byte before which it ends.
    pub to: usize,
}

/// A part of a text: where it starts and how long it is, in bytes.
///
/// ```
/// use homeludaf::FuncIRI;
///
/// let refusal = FuncIRI::read(" src(#a)").unwrap_err();
/// assert_eq!(refusal.number, 8);
/// assert_eq!(refusal.part.of(" src(#a)"), Some("src("));
/// ```
#[derive(Clone, Copy, PartialEq, Eq, Debug, Default)]
#[non_exhaustive]
pub struct Part {
    /// The place of the first byte, counted from 0.
    pub start: usize,
    /// How many bytes it has.
    pub len: usize,
}

impl Part {
    /// The part of this text, if it has such a part.
    pub fn of(self, text: &str) -> Option<&str> {
        text.get(self.start..self.start.checked_add(self.len)?)
    }
}

impl Refusal {
    pub(crate) fn at(number: u32, position: usize) -> Self {
        Refusal {
            number,
            position,
            place: 0,
            found: 0,
            wanted: 0,
            part: Part::default(),
            from: 0,
            to: 0,
        }
    }

    /// With the byte found and the byte wanted.
    pub(crate) fn with_bytes(self, [found, wanted]: [u8; 2]) -> Self {
        Refusal {
            found,
            wanted,
            ..self
        }
    }

    /// The refusal of a refused record. The text is for errors alone, which keep parts of it.
    pub(crate) fn of(record: &Record, _: &str) -> Self {
        let (start, len) = record.found_place();
        let (from, to) = record.stretch();
        Refusal {
            place: record.place(),
            part: Part { start, len },
            from,
            to,
            ..Refusal::at(record.number() as u32, record.position())
        }
        .with_bytes(record.found_and_wanted())
    }

    /// The refused piece of the text, as a range of bytes; the table above says which it is.
    ///
    /// ```
    /// use homeludaf::FilterValueListParser;
    ///
    /// let text = "sepia() blur(50%)";
    /// let refusal = FilterValueListParser::read(text).nth(1).unwrap().unwrap_err();
    /// assert_eq!((refusal.number, refusal.stretch()), (11, 8..16));
    /// assert_eq!(text.get(refusal.stretch()), Some("blur(50%"));
    /// ```
    ///
    /// Of a paint it counts bytes from where its position counts characters: from what trimming leaves,
    /// or from the fallback.
    ///
    /// ```
    /// use homeludaf::Paint;
    ///
    /// let refusal = Paint::read(" url(#a) red)").unwrap_err();
    /// assert_eq!((refusal.position, refusal.stretch()), (4, 3..4));
    /// assert_eq!("red)".get(refusal.stretch()), Some(")"));
    /// ```
    ///
    /// A 7's is one byte, which may be the first of a longer character and then is no `str`: take it
    /// from the text's bytes.
    ///
    /// ```
    /// use homeludaf::IRI;
    ///
    /// let refusal = IRI::read("é").unwrap_err();
    /// assert_eq!((refusal.number, refusal.stretch()), (7, 0..1));
    /// assert_eq!("é".get(refusal.stretch()), None);
    /// assert_eq!("é".as_bytes()[refusal.stretch()], [refusal.found]);
    /// ```
    ///
    /// It is `0..0` for a 1, and for what an error keeps of a refusal ([`Error::refusal`]).
    ///
    /// [`Error::refusal`]: crate::Error::refusal
    pub fn stretch(&self) -> Range<usize> {
        self.from..self.to
    }

    /// Whether it is a number outside the domain: 10, 23 or 24.
    ///
    /// ```
    /// use homeludaf::Paint;
    ///
    /// let refusal = Paint::read("rgb(9007199254740992,0,0)").unwrap_err();
    /// assert_eq!((refusal.number, refusal.is_outside_domain()), (23, true));
    /// ```
    pub fn is_outside_domain(&self) -> bool {
        matches!(self.number, 10 | 23 | 24)
    }
}

impl fmt::Display for Refusal {
    fn fmt(&self, f: &mut fmt::Formatter<'_>) -> fmt::Result {
        let at = self.position;
        match self.number {
            1 => write!(f, "the text has over 4096 bytes"),
            2 => write!(f, "the bytes from place {} on are not UTF-8", self.place),
            3 => write!(f, "the list place is no place of the text"),
            4 => write!(f, "the text ends too early"),
            5 => write!(f, "the text is no such value"),
            6 => write!(f, "something else stands at character {at}"),
            7 => {
                let [found, wanted] = [self.found, self.wanted].map(char::from);
                write!(
                    f,
                    "{wanted:?} is wanted at character {at} and not {found:?}"
                )
            }
            8 => write!(f, "{LINK_START:?} is wanted at character {at}"),
            9 => write!(
                f,
                "a number is wanted at character {at}, and none starts there"
            ),
            10 => write!(f, "the number at character {at} does not keep to the form"),
            11 => write!(f, "a percentage is not allowed at character {at}"),
            12 => write!(f, "a negative value is not allowed at character {at}"),
            13 => write!(f, "an angle with its unit is wanted at character {at}"),
            14 => write!(
                f,
                "the two offsets of a shadow are wanted at character {at}"
            ),
            15 => write!(f, "the link at character {at} is empty"),
            18 => write!(
                f,
                "the colour is not written by the house rules: it cannot go on so at character {at}"
            ),
            22 => write!(
                f,
                "a number is wanted at character {at}, where the text has ended"
            ),
            23 => write!(
                f,
                "the number at character {at} has digits that are too large"
            ),
            24 => write!(f, "the number at character {at} has a scale out of range"),
            other => write!(f, "refused by {other}, which no reader gives"),
        }
    }
}

impl std::error::Error for Refusal {}

#[cfg(test)]
mod tests {
    use super::{Part, Refusal};
    use crate::record::{Record, ENTRIES};

    /// Each entry of a record has its own number here.
    #[test]
    fn a_refusal_has_its_entries() {
        let record = Record(std::array::from_fn::<u64, ENTRIES, _>(|i| 10 + i as u64));
        let refusal = Refusal::of(&record, "");
        assert_eq!(
            (refusal.number, refusal.position, refusal.place),
            (10, 11, 12)
        );
        assert_eq!((refusal.found, refusal.wanted), (13, 14));
        assert_eq!((refusal.part.start, refusal.part.len), (15, 16));
        assert_eq!((refusal.from, refusal.to), (31, 32));
        assert_eq!(refusal.stretch(), 31..32);
    }

    #[test]
    fn every_number_has_its_sentence() {
        let said: Vec<String> = (1..=15)
            .chain([18])
            .chain(22..=24)
            .map(|number| Refusal::at(number, 7).to_string())
            .collect();
        for (i, sentence) in said.iter().enumerate() {
            assert!(!sentence.contains("no reader gives"), "{sentence}");
            assert!(!said[..i].contains(sentence), "twice: {sentence}");
        }
        let positions = said.iter().filter(|s| s.contains("character 7")).count();
        assert_eq!(positions, 14, "6 to 15, 18 and 22 to 24 tell a position");
        assert!(Refusal::at(0, 0).to_string().contains("no reader gives"));
    }

    #[test]
    fn a_part_that_the_text_has_not() {
        let part = |start, len| Part { start, len };
        assert_eq!(part(1, 2).of("abc"), Some("bc"));
        assert_eq!(part(1, 3).of("abc"), None);
        assert_eq!(part(2, usize::MAX).of("abc"), None);
        assert_eq!(part(1, 1).of("é"), None);
    }
}
