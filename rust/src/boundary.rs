//! The calls into the proved archive: all that is `extern` and all that is `unsafe`.
//!
//! The declarations are those of include/homeludaf.h. They need nothing of the text but that the
//! pointer and the length belong together; every sequence of bytes has an answer.

use std::mem::MaybeUninit;

use crate::packed::Packed;
use crate::record::{Record, ENTRIES, RESULT};
use crate::Color;

extern "C" {
    fn homeludaf_color_packed(text: *const u8, length: usize, answer: *mut u64) -> u64;
    fn homeludaf_paint_packed(text: *const u8, length: usize, answer: *mut u64) -> u64;
    fn homeludaf_strict(text: *const u8, length: usize, answer: *mut u64);
    fn homeludaf_asked(input: *const u8, length: usize, answer: *mut u64);
    fn homeludaf_length(text: *const u8, length: usize, answer: *mut u64);
    fn homeludaf_angle(text: *const u8, length: usize, answer: *mut u64);
    fn homeludaf_iri(text: *const u8, length: usize, answer: *mut u64);
    fn homeludaf_func_iri(text: *const u8, length: usize, answer: *mut u64);
    fn homeludaf_inherited(
        own: *const u8,
        own_length: usize,
        parent: *const u8,
        parent_length: usize,
        answer: *mut u64,
    );
    fn homeludaf_length_all(
        text: *const u8,
        length: usize,
        place: usize,
        answers: *mut u64,
        entries: usize,
        told: *mut u64,
    );
    fn homeludaf_filter_all(
        text: *const u8,
        length: usize,
        place: usize,
        answers: *mut u64,
        entries: usize,
        told: *mut u64,
    );
    fn homeludaf_hex(
        red: u8,
        green: u8,
        blue: u8,
        alpha: u8,
        short: bool,
        out: *mut u8,
        length: usize,
        answer: *mut u64,
    );
    fn homeludaf_keyword(
        red: u8,
        green: u8,
        blue: u8,
        alpha: u8,
        out: *mut u8,
        length: usize,
        answer: *mut u64,
    );
}

/// A function that reads a whole text; only those declared above are ever handed over.
type Whole = unsafe extern "C" fn(*const u8, usize, *mut u64);

/// A function that reads a whole text and gives its value as one number; only those declared above
/// are ever handed over.
type One = unsafe extern "C" fn(*const u8, usize, *mut u64) -> u64;

/// A function that reads steps of a list; only those declared above are ever handed over.
type Many = unsafe extern "C" fn(*const u8, usize, usize, *mut u64, usize, *mut u64);

/// Room for a record, which a call fills: neither set to zero before nor copied after.
pub(crate) struct Room(MaybeUninit<Record>);

impl Room {
    #[inline(always)]
    pub(crate) fn new() -> Self {
        Room(MaybeUninit::uninit())
    }
}

#[inline(always)]
fn whole<'r>(call: Whole, text: &str, room: &'r mut Room) -> &'r Record {
    // SAFETY: pointer and length are those of one `&str`, which is never null and lives through
    // the call; the callee only reads it and keeps neither pointer (proved: the text is lent as
    // `&[u8]`), is safe and ends on every input (proved: its contract has no `requires`), and does
    // not unwind. The answer is a record of ours and overlaps no text, since it is lent to us alone.
    // The callee fills all of it and nothing else (proved: it is lent as `&mut [u64; 24]`, and the
    // contract gives every entry), so that it may be read after the call. What lay there before may
    // be anything: the contract asks nothing of it, and the answer does not depend on it.
    unsafe {
        call(text.as_ptr(), text.len(), room.0.as_mut_ptr().cast());
        room.0.assume_init_ref()
    }
}

macro_rules! calls {
    ($($name:ident => $call:ident),*) => {$(
        #[inline]
        pub(crate) fn $name<'r>(text: &str, room: &'r mut Room) -> &'r Record {
            whole($call, text, room)
        }
    )*};
}

calls! {
    strict => homeludaf_strict,
    asked => homeludaf_asked,
    length => homeludaf_length,
    angle => homeludaf_angle,
    iri => homeludaf_iri,
    func_iri => homeludaf_func_iri
}

/// The inherit rule, of an element's own text and its parent's.
pub(crate) fn inherited<'r>(own: &str, parent: &str, room: &'r mut Room) -> &'r Record {
    // SAFETY: as in `whole`, of two texts, both of which are lent to be read. They may be the same.
    unsafe {
        homeludaf_inherited(
            own.as_ptr(),
            own.len(),
            parent.as_ptr(),
            parent.len(),
            room.0.as_mut_ptr().cast(),
        );
        room.0.assume_init_ref()
    }
}

/// The value of a text, or the record of its refusal.
#[inline(always)]
fn one<'r>(call: One, text: &str, room: &'r mut Room) -> Result<Packed, &'r Record> {
    // SAFETY: as in `whole`, but that the callee fills the record where it gives 0 and only there
    // (proved), so that it may be read in that case alone.
    unsafe {
        match call(text.as_ptr(), text.len(), room.0.as_mut_ptr().cast()) {
            0 => Err(room.0.assume_init_ref()),
            number => Ok(Packed(number)),
        }
    }
}

#[inline(always)]
pub(crate) fn color<'r>(text: &str, room: &'r mut Room) -> Result<Packed, &'r Record> {
    one(homeludaf_color_packed, text, room)
}

#[inline(always)]
pub(crate) fn paint<'r>(text: &str, room: &'r mut Room) -> Result<Packed, &'r Record> {
    one(homeludaf_paint_packed, text, room)
}

/// How many steps of a list are read at once.
const KEPT: usize = 32;

/// Steps of a list that were read before they were asked for, as records; the first of them is
/// handed out next.
///
/// The order of the fields is given, so that what a new one sets to zero lies together: else the
/// compiler sets all that lies between to zero, too.
#[derive(Clone, Copy)]
#[repr(C)]
pub(crate) struct Ahead {
    next: u8,
    end: u8,
    records: [MaybeUninit<Record>; KEPT],
}

impl Ahead {
    #[inline(always)]
    pub(crate) fn new() -> Self {
        Ahead {
            next: 0,
            end: 0,
            records: [const { MaybeUninit::uninit() }; KEPT],
        }
    }

    #[inline(always)]
    pub(crate) fn is_empty(&self) -> bool {
        self.next == self.end
    }

    /// The next of the records, where it lies.
    #[inline(always)]
    pub(crate) fn take(&mut self) -> Option<&Record> {
        if self.is_empty() {
            return None;
        }
        let record = &self.records[usize::from(self.next)];
        self.next += 1;
        // SAFETY: the records below `end` were filled by `fill`, which alone sets `end`.
        Some(unsafe { record.assume_init_ref() })
    }

    /// Reads the steps from a place on, up to the first that is no value; as many as there is room for.
    #[inline(always)]
    fn fill(&mut self, call: Many, text: &str, place: usize) {
        let mut told = [0; 2];
        // SAFETY: as in `whole`. The place is a number and no pointer: one past the end, or inside a
        // character, is refused (proved). The room is lent as a slice of all its numbers; the callee
        // fills whole records from its start on and tells their count (proved), which never is more
        // than there is room for, so that as many records may be read after the call.
        unsafe {
            call(
                text.as_ptr(),
                text.len(),
                place,
                self.records.as_mut_ptr().cast(),
                KEPT * ENTRIES,
                told.as_mut_ptr(),
            );
        }
        self.next = 0;
        self.end = told[0].min(KEPT as u64) as u8;
    }

    pub(crate) fn lengths(&mut self, text: &str, place: usize) {
        self.fill(homeludaf_length_all, text, place);
    }

    pub(crate) fn filters(&mut self, text: &str, place: usize) {
        self.fill(homeludaf_filter_all, text, place);
    }
}

/// The bytes of the longest text of a colour, which is `lightgoldenrodyellow`.
const LONGEST: usize = 20;

/// A colour as the archive wrote it. The bytes behind the text are 0.
#[derive(Clone, Copy, PartialEq, Eq, Hash)]
pub(crate) struct Text {
    bytes: [u8; LONGEST],
    length: u8,
}

impl Text {
    /// What a call writes into the bytes, and answers in the record, that it is handed.
    #[inline(always)]
    fn of(call: impl FnOnce(*mut u8, *mut u64)) -> Option<Self> {
        let mut bytes = [0; LONGEST];
        let mut answer = Record([0; ENTRIES]);
        call(bytes.as_mut_ptr(), answer.0.as_mut_ptr());
        let length = answer.0[RESULT].min(LONGEST as u64) as u8;
        (!answer.is_refused()).then_some(Text { bytes, length })
    }

    pub(crate) fn hex(c: Color, short: bool) -> Option<Self> {
        // SAFETY: the bytes and the record are ours, do not overlap and live through the call, which
        // keeps no pointer. The callee is safe and ends for every colour (proved: its contract has no
        // `requires`), and writes inside the `LONGEST` bytes that it is lent alone (proved).
        Self::of(|out, answer| unsafe {
            homeludaf_hex(c.red, c.green, c.blue, c.alpha, short, out, LONGEST, answer)
        })
    }

    pub(crate) fn keyword(c: Color) -> Option<Self> {
        // SAFETY: as in `hex`.
        Self::of(|out, answer| unsafe {
            homeludaf_keyword(c.red, c.green, c.blue, c.alpha, out, LONGEST, answer)
        })
    }

    #[inline]
    pub(crate) fn as_str(&self) -> &str {
        let text = &self.bytes[..usize::from(self.length)];
        // SAFETY: the text is hex digits after `#`, or a keyword (proved): ASCII, which is UTF-8.
        unsafe { std::str::from_utf8_unchecked(text) }
    }
}
