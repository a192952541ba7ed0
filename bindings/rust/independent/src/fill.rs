//! Filling the page and its prices.
//!
//! Bidders are renumbered by rank: the highest bid first, equal bids by number. A set of bidders is then a word whose lowest bit is the
//! winner and whose next bit is the rival that sets the price. A winner bars others; the constraints that name it are found by two
//! chains through the sheet, one by owner and one by other bidder, so that no constraint is looked at for a bidder that has no part in it.

use crate::read::{constraint, word_at, words, Parts, MOST_CONSTRAINTS, MOST_SLOTS};

/// Room for bidder numbers 0 to 64, a power of two so that a masked number is always inside.
const NUMBERS: usize = 128;

/// The bidder (0 for none) and the price of each slot.
pub struct Page {
    pub bidders: [u8; MOST_SLOTS],
    pub prices: [u32; MOST_SLOTS],
}

/// Bidders in the order in which they win.
struct Ranking {
    /// By rank: the bid's complement above the number, so that numbers in rising order are bidders in falling order.
    keys: [u64; 64],
    /// By number: the bit of its rank. Number 0, nobody, has no bit.
    bits: [u64; NUMBERS],
}

impl Ranking {
    fn of(parts: &Parts) -> Ranking {
        let mut keys = [0; 64];
        let mut bits = [0; NUMBERS];
        for (at, bid) in words(parts.bids).enumerate() {
            keys[at & 63] = u64::from(!bid) << 32 | (at as u64 + 1);
        }
        keys[..parts.bidders].sort_unstable();
        for (rank, key) in keys[..parts.bidders].iter().enumerate() {
            bits[*key as usize & (NUMBERS - 1)] = 1 << rank;
        }
        Ranking { keys, bits }
    }

    fn number(&self, rank: u32) -> u8 {
        self.keys[rank as usize & 63] as u8
    }

    fn bid(&self, rank: u32) -> u32 {
        !((self.keys[rank as usize & 63] >> 32) as u32)
    }

    fn bit(&self, number: usize) -> u64 {
        self.bits[number & (NUMBERS - 1)]
    }

    /// The ranks of bids below a floor: all from the first such on.
    fn below(&self, bidders: usize, floor: u32) -> u64 {
        let reaching = self.keys[..bidders].partition_point(|key| !((key >> 32) as u32) >= floor);
        u64::MAX.checked_shl(reaching as u32).unwrap_or(0)
    }
}

/// Two chains through the constraints. An entry is a constraint's position and 1; 0 ends a chain.
struct Chains {
    first_of_owner: [u16; NUMBERS],
    first_of_other: [u16; NUMBERS],
    next_of_owner: [u16; MOST_CONSTRAINTS],
    next_of_other: [u16; MOST_CONSTRAINTS],
}

impl Chains {
    fn of(constraints: &[u8]) -> Chains {
        let mut chains = Chains {
            first_of_owner: [0; NUMBERS],
            first_of_other: [0; NUMBERS],
            next_of_owner: [0; MOST_CONSTRAINTS],
            next_of_other: [0; MOST_CONSTRAINTS],
        };
        for (at, word) in words(constraints).enumerate() {
            let entry = at & (MOST_CONSTRAINTS - 1);
            let owner = &mut chains.first_of_owner[word as usize & (NUMBERS - 1)];
            chains.next_of_owner[entry] = std::mem::replace(owner, entry as u16 + 1);
            let other = &mut chains.first_of_other[(word >> 16) as usize & (NUMBERS - 1)];
            chains.next_of_other[entry] = std::mem::replace(other, entry as u16 + 1);
        }
        chains
    }
}

/// Who may no longer stand where: the entry 0 holds those barred from every slot, the others by slot.
struct Barred<'a> {
    constraints: &'a [u8],
    chains: Chains,
    masks: [u64; 32],
}

impl Barred<'_> {
    /// Constraints on the own slot alone bind from the start. They stand in the chain of "no other".
    fn by_own_slot(&mut self, ranking: &Ranking) {
        let mut entry = self.chains.first_of_other[0];
        while entry != 0 {
            let at = usize::from(entry - 1);
            let barring = constraint(word_at(self.constraints, at));
            self.masks[barring.own & 31] |= ranking.bit(barring.owner);
            entry = self.chains.next_of_other[at & (MOST_CONSTRAINTS - 1)];
        }
    }

    /// A bid below a slot's floor keeps its bidder from the slot, whatever happens before.
    fn by_floors(&mut self, ranking: &Ranking, bidders: usize, floors: &[u32]) {
        for (at, &floor) in floors.iter().enumerate() {
            self.masks[(at + 1) & 31] |= ranking.below(bidders, floor);
        }
    }

    /// The winner's own constraints, once it stands in a slot.
    fn by_winner(&mut self, ranking: &Ranking, winner: u8, slot: usize) {
        let mut entry = self.chains.first_of_owner[usize::from(winner) & (NUMBERS - 1)];
        while entry != 0 {
            let at = usize::from(entry - 1);
            let barring = constraint(word_at(self.constraints, at));
            if barring.own == 0 || barring.own == slot {
                self.masks[barring.slot & 31] |= ranking.bit(barring.other);
            }
            entry = self.chains.next_of_owner[at & (MOST_CONSTRAINTS - 1)];
        }
    }

    /// The constraints of others that name the winner in its slot.
    fn by_others(&mut self, ranking: &Ranking, winner: u8, slot: usize) {
        let mut entry = self.chains.first_of_other[usize::from(winner) & (NUMBERS - 1)];
        while entry != 0 {
            let at = usize::from(entry - 1);
            let barring = constraint(word_at(self.constraints, at));
            if barring.slot == slot {
                self.masks[barring.own & 31] |= ranking.bit(barring.owner);
            }
            entry = self.chains.next_of_other[at & (MOST_CONSTRAINTS - 1)];
        }
    }
}

/// The greedy page and its prices, with a floor under each slot or, where the list is empty, under none.
pub fn fill(parts: &Parts, floors: &[u32]) -> Page {
    let ranking = Ranking::of(parts);
    let mut barred = Barred { constraints: parts.constraints, chains: Chains::of(parts.constraints), masks: [0; 32] };
    barred.by_own_slot(&ranking);
    barred.by_floors(&ranking, parts.bidders, floors);
    let mut page = Page { bidders: [0; MOST_SLOTS], prices: [0; MOST_SLOTS] };
    let mut free = u64::MAX >> (64 - parts.bidders);
    for slot in 1..=parts.slots {
        let eligible = free & !barred.masks[0] & !barred.masks[slot & 31];
        if eligible == 0 {
            continue;
        }
        let winner = ranking.number(eligible.trailing_zeros());
        free &= !ranking.bit(usize::from(winner));
        page.bidders[(slot - 1) & 15] = winner;
        let floor = floors.get(slot - 1).map_or(0, |floor| floor.next_multiple_of(parts.tick));
        page.prices[(slot - 1) & 15] = asked(&ranking, parts.tick, winner, eligible & (eligible - 1)).max(floor);
        if slot < parts.slots {
            barred.by_winner(&ranking, winner, slot);
            barred.by_others(&ranking, winner, slot);
        }
    }
    page
}

/// What the first of the rivals asks: its bid, and one tick more where it wins a tie. A rival behind it bids no more, and where it bids as
/// much it has a higher number, so it asks no more.
fn asked(ranking: &Ranking, tick: u32, winner: u8, rivals: u64) -> u32 {
    if rivals == 0 {
        return 0;
    }
    let first = rivals.trailing_zeros();
    ranking.bid(first) + if ranking.number(first) < winner { tick } else { 0 }
}
