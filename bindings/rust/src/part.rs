//! The part of a sheet with one bidder's constraints.

use crate::sheet::Constraint;

/// The constraints of one bidder as a part of the sheet's own bytes, in sheet order: that of own slot, other bidder, other's slot. It is empty
/// where the bidder has none, and then stands just before the first constraint of a bidder with a higher number, or at the sheet's end.
#[derive(Clone, Copy, Debug, PartialEq, Eq, Hash)]
pub struct OwnerPart<'a> {
    start: usize,
    bytes: &'a [u8],
}

impl<'a> OwnerPart<'a> {
    /// The part of a sheet that the library has named.
    pub(crate) fn of(sheet: &'a [u8], start: usize, length: usize) -> OwnerPart<'a> {
        OwnerPart { start, bytes: &sheet[start..start + length] }
    }

    /// How many bytes of the sheet stand before the part.
    pub fn start(&self) -> usize {
        self.start
    }

    /// The part's bytes, four a constraint, in the sheet's own memory.
    pub fn as_bytes(&self) -> &'a [u8] {
        self.bytes
    }

    /// The constraints, one after another; nothing is copied but the one that is given.
    pub fn constraints(&self) -> impl ExactSizeIterator<Item = Constraint> + DoubleEndedIterator + 'a {
        Constraint::all_in(self.bytes)
    }
}

impl AsRef<[u8]> for OwnerPart<'_> {
    fn as_ref(&self) -> &[u8] {
        self.bytes
    }
}
