//! How a number was written.

/// A value, and how its number was written.
///
/// [`Length::written`], [`Angle::written`] and [`LengthListParser::written`] give it.
///
/// ```
/// use homeludaf::{Length, LengthUnit};
///
/// let text = " 12.0px";
/// let written = Length::written(text).unwrap();
/// assert_eq!(written.value, Length::new(12.0, LengthUnit::Px));
/// assert!(!written.whole);
/// assert_eq!(text.split_at(written.end), (" 12.0", "px"));
/// ```
///
/// [`Length::written`]: crate::Length::written
/// [`Angle::written`]: crate::Angle::written
/// [`LengthListParser::written`]: crate::LengthListParser::written
#[derive(Clone, Copy, PartialEq, Debug)]
#[non_exhaustive]
pub struct Written<T> {
    /// What was read.
    pub value: T,
    /// Whether neither a dot nor an exponent was written: yes for `12`, `+12`, `-0`, `007` and `1em`,
    /// no for `12.0`, `1e0` and `.5`.
    pub whole: bool,
    /// The byte, counted from 0, before which the number ends; its unit, if it has one, starts there.
    /// Of a list it counts from the list's first byte.
    pub end: usize,
}

#[cfg(test)]
mod tests {
    use crate::record::{Record, ENTRIES, RESULT};

    #[test]
    fn two_entries_after_the_value() {
        let mut record = Record([0; ENTRIES]);
        record.0[11..14].copy_from_slice(&[1, 7, 9]);
        let written = record.written(RESULT + 2, 'a');
        assert_eq!((written.value, written.whole, written.end), ('a', true, 7));
        let written = record.written(RESULT + 3, 'b');
        assert_eq!((written.value, written.whole, written.end), ('b', false, 9));
    }

    #[test]
    #[should_panic(expected = "the archive does not belong to this crate")]
    fn an_archive_without_them_is_not_taken_for_a_no() {
        Record([0; ENTRIES]).written(RESULT + 2, ());
    }
}
