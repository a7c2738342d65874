//! Links.

use crate::boundary::{self, Room};
use crate::record::{Record, RESULT};
use crate::{Error, Refusal};

/// Representation of the [`<IRI>`] type: `#link`.
///
/// [`<IRI>`]: https://www.w3.org/TR/SVG11/types.html#DataTypeIRI
#[derive(Clone, Copy, PartialEq, Eq, Debug)]
pub struct IRI<'a>(pub &'a str);

impl<'a> IRI<'a> {
    /// Parses an `IRI`. The link is the part of the text after the `#`.
    ///
    /// Not by the `FromStr` trait, which wants an owned value.
    #[allow(clippy::should_implement_trait)]
    #[inline]
    pub fn from_str(text: &'a str) -> Result<Self, Error> {
        link(boundary::iri(text, &mut Room::new()), text, Error::of).map(Self)
    }

    /// Parses as `from_str` does; a refusal comes whole.
    ///
    /// ```
    /// use homeludaf::IRI;
    ///
    /// assert_eq!(IRI::read("#a"), Ok(IRI("a")));
    /// assert_eq!(IRI::read("#").unwrap_err().number, 5);
    /// ```
    #[inline]
    pub fn read(text: &'a str) -> Result<Self, Refusal> {
        link(boundary::iri(text, &mut Room::new()), text, Refusal::of).map(Self)
    }
}

/// Representation of the [`<FuncIRI>`] type: `url(#link)`.
///
/// [`<FuncIRI>`]: https://www.w3.org/TR/SVG11/types.html#DataTypeFuncIRI
#[derive(Clone, Copy, PartialEq, Eq, Debug)]
pub struct FuncIRI<'a>(pub &'a str);

impl<'a> FuncIRI<'a> {
    /// Parses a `FuncIRI`. The link is the part of the text after the `#`.
    ///
    /// Not by the `FromStr` trait, which wants an owned value.
    #[allow(clippy::should_implement_trait)]
    #[inline]
    pub fn from_str(text: &'a str) -> Result<Self, Error> {
        link(boundary::func_iri(text, &mut Room::new()), text, Error::of).map(Self)
    }

    /// Parses as `from_str` does; a refusal comes whole.
    ///
    /// ```
    /// use homeludaf::FuncIRI;
    ///
    /// assert_eq!(FuncIRI::read("url(#a)"), Ok(FuncIRI("a")));
    /// let refusal = FuncIRI::read("uri(#a)").unwrap_err();
    /// assert_eq!(refusal.part.of("uri(#a)"), Some("uri("));
    /// ```
    #[inline]
    pub fn read(text: &'a str) -> Result<Self, Refusal> {
        link(
            boundary::func_iri(text, &mut Room::new()),
            text,
            Refusal::of,
        )
        .map(Self)
    }
}

#[inline(always)]
fn link<'a, E>(
    record: &Record,
    text: &'a str,
    refused: impl Fn(&Record, &str) -> E,
) -> Result<&'a str, E> {
    if record.is_refused() {
        return Err(refused(record, text));
    }
    Ok(record.part(RESULT, text))
}
