//! Round H of document 01: bidder 1 will not stand below 2, nor 2 below 3, nor 3 below 4, and the bids rise. Prints the page in the
//! page program's form (place, bidder, price), then the best page and its total.

use pas::{Bidder, Kind, Refusal, SheetBuilder, Slot};

fn main() -> Result<(), Refusal> {
    let mut round = SheetBuilder::new().effects([10_000, 4_500, 2_025]).bids([30, 32, 36, 40]);
    for upper in 1..=3 {
        for (own, above) in [(2, 1), (3, 1), (3, 2)] {
            let kind = Kind::Pair { own: Slot(own), other: Bidder(upper + 1), slot: Slot(above) };
            round = round.constraint(Bidder(upper), kind);
        }
    }
    let sheet = round.build()?;
    for (at, placement) in sheet.play().placements.iter().enumerate() {
        println!("{} {} {}", at + 1, shown(placement.bidder), placement.price);
    }
    let best = sheet.best_page()?;
    let bidders: Vec<u8> = best.bidders.into_iter().map(shown).collect();
    println!("best page {bidders:?}, total {}", best.total);
    Ok(())
}

/// A bidder's number, 0 for an empty slot.
fn shown(bidder: Option<Bidder>) -> u8 {
    bidder.map_or(0, |bidder| bidder.0)
}
