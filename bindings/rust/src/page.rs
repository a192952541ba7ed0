//! What the calls give back: a played page, and a best page.

use crate::sheet::{Bidder, Slot};

/// One slot of a played page.
#[derive(Clone, Copy, Debug, PartialEq, Eq, Hash)]
pub struct Placement {
    /// Who stands there; none for an empty slot.
    pub bidder: Option<Bidder>,
    /// What the bidder pays per click; 0 for an empty slot. A bidder's price may be 0 too.
    pub price: u32,
}

/// A played page, slot by slot from the top.
#[derive(Clone, Debug, PartialEq, Eq, Hash)]
pub struct Page {
    /// The slots in order; the first is slot 1.
    pub placements: Vec<Placement>,
}

impl Page {
    /// Reads the 5 bytes a slot that the play call writes.
    pub(crate) fn from_result(written: &[u8]) -> Page {
        let placement =
            |bytes: &[u8]| Placement { bidder: bidder(bytes[0]), price: u32::from_le_bytes([bytes[1], bytes[2], bytes[3], bytes[4]]) };
        Page { placements: written.chunks_exact(5).map(placement).collect() }
    }

    /// The bidders by slot, none for an empty one.
    pub fn bidders(&self) -> Vec<Option<Bidder>> {
        self.placements.iter().map(|placement| placement.bidder).collect()
    }

    /// The prices by slot, 0 for an empty one.
    pub fn prices(&self) -> Vec<u32> {
        self.placements.iter().map(|placement| placement.price).collect()
    }

    /// The slot of a bidder, if it has one.
    pub fn slot_of(&self, bidder: Bidder) -> Option<Slot> {
        let at = self.placements.iter().position(|placement| placement.bidder == Some(bidder))?;
        Some(Slot(at as u8 + 1))
    }
}

/// A best page and its total.
#[derive(Clone, Debug, PartialEq, Eq, Hash)]
pub struct BestPage {
    /// The bidders by slot, none for an empty one; the first is slot 1.
    pub bidders: Vec<Option<Bidder>>,
    /// The sum of bid × effect over the filled slots.
    pub total: u64,
}

/// The bidder of a byte in a result, where 0 is an empty slot.
fn bidder(number: u8) -> Option<Bidder> {
    (number > 0).then_some(Bidder(number))
}

/// The bidders of the bytes that the best page's call writes, one a slot.
pub(crate) fn bidders(written: &[u8]) -> Vec<Option<Bidder>> {
    written.iter().map(|&number| bidder(number)).collect()
}
