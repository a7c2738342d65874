//! A colour's or a paint's value as one number, and what its bits stand for.
//!
//! The layout is stated in crates/packed/specs/Numbers.antt, which the proofs cite, and in
//! include/homeludaf.h.

use crate::Color;

/// A value as it came over the boundary.
#[derive(Clone, Copy)]
pub(crate) struct Packed(pub(crate) u64);

impl Packed {
    /// So many bits from one on.
    #[inline(always)]
    fn bits(self, from: u32, count: u32) -> u64 {
        (self.0 >> from) & ((1 << count) - 1)
    }

    /// 6 for a colour; a paint has kinds from 1 to 7.
    #[inline(always)]
    pub(crate) fn kind(self) -> u64 {
        self.bits(0, 3)
    }

    /// The colour, a paint's own or its fallback's.
    #[inline(always)]
    pub(crate) fn color(self) -> Color {
        let [red, green, blue, alpha] = (self.bits(31, 32) as u32).to_le_bytes();
        Color::new_rgba(red, green, blue, alpha)
    }

    /// A link's kind of fallback.
    #[inline(always)]
    pub(crate) fn fallback(self) -> u64 {
        self.bits(29, 2)
    }

    /// A link, which is a part of the text.
    ///
    /// The slice is checked, so that an archive that is not the proved one can do no harm.
    #[inline(always)]
    pub(crate) fn link(self, text: &str) -> &str {
        let start = self.bits(3, 13) as usize;
        &text[start..start + self.bits(16, 13) as usize]
    }
}
