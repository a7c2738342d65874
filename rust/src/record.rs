//! The record that each call fills, and what its entries stand for.
//!
//! The layout is stated in crates/records/specs/Records.antt, which the proofs cite, and in
//! include/homeludaf.h.

use crate::{Angle, AngleUnit, Color, Length, LengthUnit, Written};

/// How many numbers a record has.
pub(crate) const ENTRIES: usize = 24;

/// The first entry of the result.
pub(crate) const RESULT: usize = 9;

/// An answer as it came over the boundary.
#[derive(Clone, Copy)]
#[repr(transparent)]
pub(crate) struct Record(pub(crate) [u64; ENTRIES]);

impl Record {
    /// The refusal's number, 0 for none.
    #[inline]
    pub(crate) fn number(&self) -> u64 {
        self.0[0]
    }

    #[inline]
    pub(crate) fn is_refused(&self) -> bool {
        self.number() != 0
    }

    pub(crate) fn position(&self) -> usize {
        self.0[1] as usize
    }

    /// The byte that was found, and the one that was wanted.
    pub(crate) fn found_and_wanted(&self) -> [u8; 2] {
        [self.0[3] as u8, self.0[4] as u8]
    }

    /// The byte of the first sequence that is not UTF-8.
    pub(crate) fn place(&self) -> usize {
        self.0[2] as usize
    }

    /// Where the part that a refusal tells starts, and how many bytes it has.
    pub(crate) fn found_place(&self) -> (usize, usize) {
        (self.0[5] as usize, self.0[6] as usize)
    }

    /// The part of the text that a refusal tells.
    pub(crate) fn found_part<'a>(&self, text: &'a str) -> &'a str {
        self.part(5, text)
    }

    /// Where the refused stretch starts, and where it ends.
    pub(crate) fn stretch(&self) -> (usize, usize) {
        (self.0[21] as usize, self.0[22] as usize)
    }

    /// Of a list's step: whether it is a value. Else it is the list's end or a refusal.
    #[inline]
    pub(crate) fn is_value(&self) -> bool {
        self.0[7] == 0
    }

    /// Of a list's step: where the next one goes on.
    #[inline]
    pub(crate) fn list_place(&self) -> usize {
        self.0[8] as usize
    }

    /// A number that says which case an entry is.
    #[inline]
    pub(crate) fn kind(&self, entry: usize) -> u64 {
        self.0[entry]
    }

    #[inline]
    pub(crate) fn float(&self, entry: usize) -> f64 {
        f64::from_bits(self.0[entry])
    }

    /// A colour of four entries, each below 256.
    #[inline]
    pub(crate) fn color(&self, entry: usize) -> Color {
        let channel = |i: usize| self.0[entry + i] as u8;
        Color::new_rgba(channel(0), channel(1), channel(2), channel(3))
    }

    /// A length of two entries.
    #[inline]
    pub(crate) fn length(&self, entry: usize) -> Length {
        let unit = match self.0[entry + 1] {
            0 => LengthUnit::None,
            1 => LengthUnit::Em,
            2 => LengthUnit::Ex,
            3 => LengthUnit::Px,
            4 => LengthUnit::In,
            5 => LengthUnit::Cm,
            6 => LengthUnit::Mm,
            7 => LengthUnit::Pt,
            8 => LengthUnit::Pc,
            9 => LengthUnit::Percent,
            other => foreign("length unit", other),
        };
        Length::new(self.float(entry), unit)
    }

    /// An angle of two entries.
    #[inline]
    pub(crate) fn angle(&self, entry: usize) -> Angle {
        let unit = match self.0[entry + 1] {
            0 => AngleUnit::Degrees,
            1 => AngleUnit::Gradians,
            2 => AngleUnit::Radians,
            3 => AngleUnit::Turns,
            other => foreign("angle unit", other),
        };
        Angle::new(self.float(entry), unit)
    }

    /// How a value's number was written, of two entries: whether it is whole, and where it ended.
    ///
    /// No number ends at 0; an archive of another version may leave both entries so.
    #[inline]
    pub(crate) fn written<T>(&self, entry: usize, value: T) -> Written<T> {
        Written {
            value,
            whole: self.kind(entry) == 1,
            end: match self.0[entry + 1] {
                0 => foreign("number's end", 0),
                end => end as usize,
            },
        }
    }

    /// A part of the text, of two entries: start and length in bytes.
    ///
    /// The slice is checked, so that an archive that is not the proved one can do no harm.
    #[inline]
    pub(crate) fn part<'a>(&self, entry: usize, text: &'a str) -> &'a str {
        let start = self.0[entry] as usize;
        &text[start..start + self.0[entry + 1] as usize]
    }
}

/// Stops where a record holds a number that none of the layout's lists has.
///
/// The proofs say that this does not happen; an archive of another version could do it.
#[cold]
pub(crate) fn foreign(what: &str, number: u64) -> ! {
    panic!("homeludaf: {what} {number} in a record: the archive does not belong to this crate")
}
