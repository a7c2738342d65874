//! Whose text paints an element: the inherit rule.

use std::error;
use std::fmt;
use std::iter;

use crate::boundary::{self, Room};
use crate::record::{foreign, RESULT};
use crate::Refusal;

/// What an element's own text and its parent's tell: [`inherited`] gives it.
///
/// A text that is told is a paint, trimmed, and not `inherit`: [`Paint::from_str`] reads it.
///
/// [`Paint::from_str`]: crate::Paint::from_str
#[derive(Clone, Copy, PartialEq, Eq, Debug)]
pub enum Inherited<'a> {
    /// The element's own text.
    Own(&'a str),
    /// Its parent's.
    Parent(&'a str),
    /// Neither tells: ask higher up. [`inherited_from`] does.
    Higher,
}

/// The text that paints an element, and how far up it was found: [`inherited_from`] gives it.
#[derive(Clone, Copy, PartialEq, Eq, Debug)]
#[non_exhaustive]
pub struct InheritedText<'a> {
    /// How far up: 0 for the element itself, 1 for its parent, 2 for the parent of that.
    pub up: usize,
    /// The text, which is a paint, trimmed, and not `inherit`.
    pub text: &'a str,
}

/// A text that was asked and is no paint: whose it is, and why it is refused.
///
/// ```
/// use homeludaf::inherited;
///
/// let refused = inherited("inherit", "url(#a) red)").unwrap_err();
/// assert_eq!((refused.up, refused.refusal.number), (1, 6));
/// assert_eq!(refused.to_string(), "the parent's text: something else stands at character 4");
/// ```
#[derive(Clone, Copy, PartialEq, Eq, Debug)]
#[non_exhaustive]
pub struct InheritedRefusal {
    /// How far up the text stands: 0 for the element itself, 1 for its parent, 2 for the parent of that.
    pub up: usize,
    /// Why it is refused, as [`Paint::read`] tells it.
    ///
    /// [`Paint::read`]: crate::Paint::read
    pub refusal: Refusal,
}

/// Whose text paints an element, its own or its parent's, and which part of it: all that trimming
/// leaves.
///
/// This is the rule of SVG 2's inherited properties, `fill` and `stroke`. An own text that reads
/// `inherit`, or is empty after trimming, chooses the parent's; an attribute that is not there is an
/// empty text. Where the parent's, too, is empty or `inherit`, the one higher up is to be asked. Any
/// other text has to be a paint, else it is refused. A parent that is not chosen is not looked at.
///
/// ```
/// use homeludaf::{inherited, Inherited};
///
/// assert_eq!(inherited(" red ", "blue"), Ok(Inherited::Own("red")));
/// assert_eq!(inherited("inherit", "url(#a) none"), Ok(Inherited::Parent("url(#a) none")));
/// assert_eq!(inherited("", "inherit"), Ok(Inherited::Higher));
///
/// let absent: Option<&str> = None;
/// assert_eq!(inherited(absent.unwrap_or_default(), "blue"), Ok(Inherited::Parent("blue")));
/// ```
pub fn inherited<'a>(own: &'a str, parent: &'a str) -> Result<Inherited<'a>, InheritedRefusal> {
    let mut room = Room::new();
    let record = boundary::inherited(own, parent, &mut room);
    let (up, text) = match record.kind(RESULT) {
        1 => (0, own),
        2 => (1, parent),
        3 => return Ok(Inherited::Higher),
        other => foreign("owner of a text", other),
    };
    if record.is_refused() {
        let refusal = Refusal::of(record, text);
        return Err(InheritedRefusal { up, refusal });
    }
    let part = record.part(RESULT + 1, text);
    Ok(match up {
        0 => Inherited::Own(part),
        _ => Inherited::Parent(part),
    })
}

/// The text that paints an element: its own, or that of the nearest ancestor that tells one, the
/// parent first.
///
/// Each text is asked by the rule of [`inherited`], and those behind the one that tells, or that is
/// refused, are not looked at. `None` where nobody tells: then the property's initial value holds, for
/// `fill` black and for `stroke` none.
///
/// ```
/// use homeludaf::{inherited_from, Paint};
///
/// let found = inherited_from("", ["inherit", " ", " none ", "red"]).unwrap().unwrap();
/// assert_eq!((found.up, found.text), (3, "none"));
/// assert_eq!(Paint::from_str(found.text), Ok(Paint::None));
///
/// assert_eq!(inherited_from("inherit", []), Ok(None));
///
/// let refused = inherited_from("", ["", "rgb(1.,2,3)", "red"]).unwrap_err();
/// assert_eq!((refused.up, refused.refusal.number), (2, 10));
/// ```
pub fn inherited_from<'a>(
    own: &'a str,
    ancestors: impl IntoIterator<Item = &'a str>,
) -> Result<Option<InheritedText<'a>>, InheritedRefusal> {
    for (up, text) in iter::once(own).chain(ancestors).enumerate() {
        // As the parent's of an empty one, a text tells what it tells as its own.
        match inherited("", text) {
            Ok(Inherited::Higher) => {}
            Ok(Inherited::Own(text) | Inherited::Parent(text)) => {
                return Ok(Some(InheritedText { up, text }))
            }
            Err(refused) => return Err(InheritedRefusal { up, ..refused }),
        }
    }
    Ok(None)
}

impl fmt::Display for InheritedRefusal {
    fn fmt(&self, f: &mut fmt::Formatter<'_>) -> fmt::Result {
        let refusal = self.refusal;
        match self.up {
            0 => write!(f, "the element's own text: {refusal}"),
            1 => write!(f, "the parent's text: {refusal}"),
            up => write!(f, "the text {up} levels up: {refusal}"),
        }
    }
}

impl error::Error for InheritedRefusal {
    fn source(&self) -> Option<&(dyn error::Error + 'static)> {
        Some(&self.refusal)
    }
}
