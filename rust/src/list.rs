//! Walking a list.

use std::fmt;

use crate::boundary::Ahead;
use crate::record::Record;

/// A list's text, the byte place up to which it was handed out, and what was read ahead of it.
///
/// Each call into the archive tests the whole text, so a call reads as many steps as are kept. They
/// are kept as the records that came, and become values when they are asked for.
#[derive(Clone, Copy)]
#[repr(C)]
pub(crate) struct Walk<'a> {
    text: &'a str,
    place: usize,
    ahead: Ahead,
}

impl<'a> Walk<'a> {
    #[inline]
    pub(crate) fn new(text: &'a str) -> Self {
        Walk {
            text,
            place: 0,
            ahead: Ahead::new(),
        }
    }

    /// The next value or refusal. Nothing follows a refusal, nor the word `none`.
    ///
    /// The list's end is set by hand, because a refused text (one that is too long) gives the place
    /// back as it came.
    #[inline(always)]
    pub(crate) fn next<T, E>(
        &mut self,
        read: impl Fn(&mut Ahead, &str, usize),
        value: impl Fn(&Record, &'a str) -> T,
        error: impl Fn(&Record, &str) -> E,
    ) -> Option<Result<T, E>> {
        if self.ahead.is_empty() {
            if self.place >= self.text.len() {
                return None;
            }
            read(&mut self.ahead, self.text, self.place);
        }
        let record = self.ahead.take()?;
        if record.is_value() {
            self.place = record.list_place();
            return Some(Ok(value(record, self.text)));
        }
        self.place = self.text.len();
        if record.is_refused() {
            return Some(Err(error(record, self.text)));
        }
        None
    }
}

/// Two walks are equal where their texts are and as much of them was handed out.
impl PartialEq for Walk<'_> {
    fn eq(&self, other: &Self) -> bool {
        (self.text, self.place) == (other.text, other.place)
    }
}

impl Eq for Walk<'_> {}

impl fmt::Debug for Walk<'_> {
    fn fmt(&self, f: &mut fmt::Formatter<'_>) -> fmt::Result {
        f.debug_struct("Walk")
            .field("text", &self.text)
            .field("place", &self.place)
            .finish()
    }
}
