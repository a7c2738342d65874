//! Angles.

use crate::boundary::{self, Room};
use crate::record::{Record, RESULT};
use crate::{Error, Refusal, Written};

/// List of all SVG angle units.
#[derive(Clone, Copy, PartialEq, Eq, Debug)]
#[allow(missing_docs)]
pub enum AngleUnit {
    Degrees,
    Gradians,
    Radians,
    Turns,
}

/// Representation of the [`<angle>`] type.
///
/// [`<angle>`]: https://www.w3.org/TR/css-values-3/#angles
#[derive(Clone, Copy, PartialEq, Debug)]
#[allow(missing_docs)]
pub struct Angle {
    pub number: f64,
    pub unit: AngleUnit,
}

impl Angle {
    /// Constructs a new angle.
    #[inline]
    pub fn new(number: f64, unit: AngleUnit) -> Self {
        Self { number, unit }
    }

    /// Converts angle to degrees.
    ///
    /// The proved call gives the degrees of a text alone; an angle may be made by hand, so the rule
    /// stands here once more. A test holds the two to the same bits.
    #[inline]
    pub fn to_degrees(&self) -> f64 {
        const DEGREES_IN_A_RADIAN: f64 = 57.295_779_513_082_32;
        match self.unit {
            AngleUnit::Degrees => self.number,
            AngleUnit::Gradians => self.number * 180.0 / 200.0,
            AngleUnit::Radians => self.number * DEGREES_IN_A_RADIAN,
            AngleUnit::Turns => self.number * 360.0,
        }
    }

    /// Parses as `from_str` does; a refusal comes whole.
    ///
    /// ```
    /// use homeludaf::{Angle, AngleUnit};
    ///
    /// assert_eq!(Angle::read("90deg"), Ok(Angle::new(90.0, AngleUnit::Degrees)));
    /// let refusal = Angle::read("90 deg").unwrap_err();
    /// assert_eq!((refusal.number, refusal.position), (6, 3));
    /// ```
    #[inline]
    pub fn read(text: &str) -> Result<Self, Refusal> {
        Self::parse(text, angle_of, Refusal::of)
    }

    /// Parses as `read` does, and tells how the number was written: once read, `90` and `90.0` look
    /// alike.
    ///
    /// ```
    /// use homeludaf::Angle;
    ///
    /// let [plain, dotted] = ["90deg", "90.0deg"].map(|text| Angle::written(text).unwrap());
    /// assert_eq!(plain.value, dotted.value);
    /// assert_eq!((plain.whole, plain.end), (true, 2));
    /// assert_eq!((dotted.whole, dotted.end), (false, 4));
    /// ```
    #[inline]
    pub fn written(text: &str) -> Result<Written<Self>, Refusal> {
        Self::parse(text, written_of, Refusal::of)
    }

    #[inline(always)]
    fn parse<T, E>(
        text: &str,
        value: impl Fn(&Record) -> T,
        refused: impl Fn(&Record, &str) -> E,
    ) -> Result<T, E> {
        let mut room = Room::new();
        let record = boundary::angle(text, &mut room);
        if record.is_refused() {
            return Err(refused(record, text));
        }
        Ok(value(record))
    }
}

impl std::str::FromStr for Angle {
    type Err = Error;

    /// Parses an angle. Units are lower case; spaces may stand before it and not after it.
    #[inline]
    fn from_str(text: &str) -> Result<Self, Error> {
        Self::parse(text, angle_of, Error::of)
    }
}

/// The first of the two entries, after the degrees, that say how an angle's number was written.
const WRITTEN: usize = RESULT + 3;

#[inline(always)]
fn written_of(record: &Record) -> Written<Angle> {
    record.written(WRITTEN, angle_of(record))
}

#[inline(always)]
fn angle_of(record: &Record) -> Angle {
    record.angle(RESULT)
}

#[cfg(test)]
mod tests {
    use crate::boundary::{self, Room};
    use crate::record::RESULT;

    #[test]
    fn degrees_are_the_proved_ones() {
        for number in ["0", "-0", "1", "-1.5", "0.1", "3.3e-7", "123456789", "7e22"] {
            for unit in ["", "deg", "grad", "rad", "turn"] {
                let text = format!("{number}{unit}");
                let mut room = Room::new();
                let record = boundary::angle(&text, &mut room);
                assert!(!record.is_refused(), "{text}");
                let here = record.angle(RESULT).to_degrees();
                assert_eq!(
                    here.to_bits(),
                    record.float(RESULT + 2).to_bits(),
                    "{text}: {here}"
                );
            }
        }
    }
}
