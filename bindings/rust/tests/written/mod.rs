//! Rounds as the documents write them, for the tests that work them.

use pas::{Bidder, Kind, Sheet, SheetBuilder, Slot};

/// A constraint as the documents write it: owner, own place, other, other's place.
pub type Written = [u8; 4];

pub fn kind([_, own, other, slot]: Written) -> Kind {
    match (own, other) {
        (_, 0) => Kind::OwnSlot(Slot(own)),
        (0, _) => Kind::OtherSlot { other: Bidder(other), slot: Slot(slot) },
        _ => Kind::Pair { own: Slot(own), other: Bidder(other), slot: Slot(slot) },
    }
}

pub fn round(bids: &[u32], effects: &[u32], constraints: &[Written]) -> SheetBuilder {
    let empty = SheetBuilder::new().bids(bids.iter().copied()).effects(effects.iter().copied());
    constraints.iter().fold(empty, |round, &written| round.constraint(Bidder(written[0]), kind(written)))
}

pub fn sheet(bids: &[u32], effects: &[u32], constraints: &[Written]) -> Sheet {
    round(bids, effects, constraints).build().expect("a good sheet")
}

/// A sheet of version 2, without constraints.
pub fn in_ticks(tick: u32, bids: &[u32], effects: &[u32]) -> Sheet {
    round(bids, effects, &[]).tick(tick).build().expect("bids in ticks")
}

/// Bidders by slot, 0 for an empty one.
pub fn numbers(bidders: &[Option<Bidder>]) -> Vec<u8> {
    bidders.iter().map(|bidder| bidder.map_or(0, |bidder| bidder.0)).collect()
}
