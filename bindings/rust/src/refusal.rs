//! Why a call was refused: the numbers of the C header.

use std::error::Error;
use std::fmt;

/// The rule that a refused call breaks, the first in checking order: by number, but that 26 comes after 6, 27 after 9, 28 after 13,
/// then 30 and 31, 29 before 16, and 19 last. A refused call alters nothing that was lent to it. A later version may have more of them.
///
/// [`Display`](fmt::Display) gives the header's sentence, which says n for the number of bidders, m for that of slots ("places") and c
/// for that of constraints ("conditions").
#[derive(Clone, Copy, Debug, PartialEq, Eq, Hash, PartialOrd, Ord)]
#[repr(u32)]
#[non_exhaustive]
pub enum Refusal {
    /// 1: the sheet has fewer than 9 bytes, or fewer than 13 in version 2 (which is asked after rule 3).
    SheetTooShort = 1,
    /// 2: the mark is not P A S.
    WrongMark,
    /// 3: the version is neither 1 nor 2.
    WrongVersion,
    /// 4: the number of bidders is 0 or above 64.
    WrongBidders,
    /// 5: the number of slots is 0 or above 16.
    WrongSlots,
    /// 6: there are more than 1,024 constraints.
    TooManyConstraints,
    /// 7: the length is not 9 + 4 × (slots + bidders + constraints), or 4 more in version 2.
    WrongLength,
    /// 8: an effect is 0, above 1,000,000 or above the one before it.
    WrongEffect,
    /// 9: a bid is above 1,000,000,000.
    WrongBid,
    /// 10: a constraint has owner 0, or names a bidder or a slot that is not there.
    OutOfRange,
    /// 11: a constraint's other bidder is its owner.
    OtherIsOwner,
    /// 12: a constraint names just one of other bidder and other's slot.
    HalfAnOther,
    /// 13: a constraint names nothing but its owner.
    EmptyConstraint,
    /// 14: the truth sheet breaks any of 1 to 13 and 26 to 28.
    TruthRefused,
    /// 15: the truth sheet has another number of bidders or slots.
    TruthDiffers,
    /// 16: the bidder named in the call is 0 or not in the sheet.
    WrongBidder,
    /// 17: the worth is above 1,000,000,000.
    WrongWorth,
    /// 18: the best page is sought with more than 8 bidders or 8 slots.
    TooLargeForBest,
    /// 19: the result buffer is shorter than the bytes to be written.
    ResultTooShort,
    /// 20: the limit of top-of-page terms is 0 or above the number of slots.
    WrongLimit,
    /// 21: there are not as many bars as bidders, or a bar is above the number of slots.
    WrongBars,
    /// 22: the bar against the owner of the terms is not 0.
    BarAgainstOwner,
    /// 23: the bytes of the rival sets are not one set for each bidder, or a set, that of the members too, has a number that is 0 or not a bidder's.
    WrongSet,
    /// 24: a bidder is in its own set of rivals.
    RivalIsOwner,
    /// 25: the rivals give more than 1,024 constraints.
    TooManyTerms,
    /// 26: the tick is 0 or above 1,000,000,000.
    WrongTick,
    /// 27: a bid is no multiple of the tick.
    BidOffTick,
    /// 28: a constraint of version 2 is not above the one before it, in the order of owner, own slot, other bidder, other's slot.
    OutOfOrder,
    /// 29: a bidder's part is asked of a sheet of version 1, whose constraints may come in any order.
    UnorderedVersion,
    /// 30: there are not as many floors as slots.
    WrongFloorCount,
    /// 31: a floor is above 1,000,000,000.
    WrongFloor,
}

/// Every refusal, in the order of the numbers.
const ALL: [Refusal; 31] = [
    Refusal::SheetTooShort,
    Refusal::WrongMark,
    Refusal::WrongVersion,
    Refusal::WrongBidders,
    Refusal::WrongSlots,
    Refusal::TooManyConstraints,
    Refusal::WrongLength,
    Refusal::WrongEffect,
    Refusal::WrongBid,
    Refusal::OutOfRange,
    Refusal::OtherIsOwner,
    Refusal::HalfAnOther,
    Refusal::EmptyConstraint,
    Refusal::TruthRefused,
    Refusal::TruthDiffers,
    Refusal::WrongBidder,
    Refusal::WrongWorth,
    Refusal::TooLargeForBest,
    Refusal::ResultTooShort,
    Refusal::WrongLimit,
    Refusal::WrongBars,
    Refusal::BarAgainstOwner,
    Refusal::WrongSet,
    Refusal::RivalIsOwner,
    Refusal::TooManyTerms,
    Refusal::WrongTick,
    Refusal::BidOffTick,
    Refusal::OutOfOrder,
    Refusal::UnorderedVersion,
    Refusal::WrongFloorCount,
    Refusal::WrongFloor,
];

impl Refusal {
    /// The number, 1 to 31, by which C has it.
    pub fn number(self) -> u32 {
        self as u32
    }

    /// The refusal of a number; none for 0, which is no refusal, and for numbers that no rule has.
    pub fn from_number(number: u32) -> Option<Refusal> {
        ALL.into_iter().find(|refusal| refusal.number() == number)
    }

    /// The header's sentence.
    fn sentence(self) -> &'static str {
        match self {
            Refusal::SheetTooShort => "The sheet has fewer than 9 bytes, or fewer than 13 in version 2.",
            Refusal::WrongMark => "The mark is not P A S.",
            Refusal::WrongVersion => "The version is neither 1 nor 2.",
            Refusal::WrongBidders => "n is 0 or above 64.",
            Refusal::WrongSlots => "m is 0 or above 16.",
            Refusal::TooManyConstraints => "c is above 1,024.",
            Refusal::WrongLength => "The length is not 9 + 4 × (m + n + c), or 13 + 4 × (m + n + c) in version 2.",
            Refusal::WrongEffect => "An effect is 0, above 1,000,000 or above the one before it.",
            Refusal::WrongBid => "A bid is above 1,000,000,000.",
            Refusal::OutOfRange => "A condition has owner 0, owner or other bidder above n, or a place above m.",
            Refusal::OtherIsOwner => "A condition's other bidder is its owner.",
            Refusal::HalfAnOther => "Just one of other bidder and other's place is 0.",
            Refusal::EmptyConstraint => "Own place, other bidder and other's place are all 0.",
            Refusal::TruthRefused => "The truth sheet breaks any of 1 to 13 and 26 to 28.",
            Refusal::TruthDiffers => "The truth sheet has another n or m.",
            Refusal::WrongBidder => "The bidder named in the call is 0 or above n.",
            Refusal::WrongWorth => "The worth is above 1,000,000,000.",
            Refusal::TooLargeForBest => "The best page is sought with n above 8 or m above 8.",
            Refusal::ResultTooShort => "The result buffer is shorter than the bytes to be written.",
            Refusal::WrongLimit => "The limit is 0 or above m.",
            Refusal::WrongBars => "The list of bars is not n long, or a bar is above m.",
            Refusal::BarAgainstOwner => "The bar against the owner is not 0.",
            Refusal::WrongSet => "The rival sets are not exactly n, or a set has a number 0 or above n.",
            Refusal::RivalIsOwner => "A bidder is in its own rival set.",
            Refusal::TooManyTerms => "The rivals give more than 1,024 conditions.",
            Refusal::WrongTick => "The tick is 0 or above 1,000,000,000.",
            Refusal::BidOffTick => "A bid is no multiple of the tick.",
            Refusal::OutOfOrder => "A condition of version 2 is not above the one before it.",
            Refusal::UnorderedVersion => "A bidder's part is asked of a sheet of version 1.",
            Refusal::WrongFloorCount => "The list of floors is not m long.",
            Refusal::WrongFloor => "A floor is above 1,000,000,000.",
        }
    }

    /// What the library's number says: nothing refused, or the refusal.
    pub(crate) fn none_or(number: u32) -> Result<(), Refusal> {
        if number == 0 {
            return Ok(());
        }
        Err(Refusal::from_number(number).expect("the library gives 0 or the number of a refusal"))
    }
}

impl fmt::Display for Refusal {
    fn fmt(&self, out: &mut fmt::Formatter<'_>) -> fmt::Result {
        out.write_str(self.sentence())
    }
}

impl Error for Refusal {}
