//! SVG colours, paints, links, lengths, angles and filter lists, read by proved code.
//!
//! The names and signatures are those of svgtypes 0.16.1, for the part of it that is ported. The
//! reading itself is done by an archive of proved functions; this crate turns its answers into
//! svgtypes' types.
//!
//! ```
//! use homeludaf::{Color, Paint, PaintFallback};
//!
//! let paint = Paint::from_str("url(#gradient) red").unwrap();
//! assert_eq!(paint, Paint::FuncIRI("gradient", Some(PaintFallback::Color(Color::red()))));
//! ```
//!
//! What svgtypes lacks: `read`, beside each type's `from_str` and each list's `from`, which gives the
//! whole [`Refusal`] in the place of an error, with the stretch of the text that is refused, and shows
//! it in a sentence; `written`, of lengths, their lists and angles, which also tells whether the number
//! was written whole, and where it ended: [`Written`]; [`Color::read_strict`], which reads a colour by
//! the house rules for new artwork, as CSS Color 3 writes it; [`Color::read_asked`], which reads what
//! the program `swatch` does; a colour as text, by [`Color::hex`], [`Color::hex_short`] and
//! [`Color::keyword`]; and whose text paints an element where its own is empty or `inherit`, by
//! [`inherited()`] and [`inherited_from`].
//!
//! ```
//! use homeludaf::Color;
//!
//! let refusal = Color::read("rgb(1e23,0,0)").unwrap_err();
//! assert_eq!((refusal.number, refusal.position, refusal.stretch()), (24, 5, 4..8));
//! assert_eq!(refusal.to_string(), "the number at character 5 has a scale out of range");
//! ```
//!
//! Two kinds of refusals have no like in svgtypes: a text over 4,096 bytes (number 1), and a number
//! outside the domain (numbers 10, 23 and 24). Of the errors both come as [`Error::InvalidString`],
//! so that [`Error`] has svgtypes' variants and no others; see there. [`Error::refusal`] and
//! [`FilterValueListParserError::refusal`] give what an error keeps of its refusal.

#![deny(missing_docs)]
#![deny(missing_debug_implementations)]
#![deny(unsafe_code)]

mod angle;
#[allow(unsafe_code)]
mod boundary;
mod color;
mod error;
mod filter_functions;
mod funciri;
mod inherited;
mod length;
mod list;
mod packed;
mod paint;
mod record;
mod refusal;
mod written;

pub use crate::angle::{Angle, AngleUnit};
pub use crate::color::{Color, ColorText};
pub use crate::error::Error;
pub use crate::filter_functions::{
    FilterValue, FilterValueListParser, FilterValueListParserError, FilterValueListReader,
};
pub use crate::funciri::{FuncIRI, IRI};
pub use crate::inherited::{inherited, inherited_from, Inherited, InheritedRefusal, InheritedText};
pub use crate::length::{
    Length, LengthListParser, LengthListReader, LengthUnit, WrittenLengthListReader,
};
pub use crate::paint::{Paint, PaintFallback};
pub use crate::refusal::{Part, Refusal};
pub use crate::written::Written;
