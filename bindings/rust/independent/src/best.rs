//! The best page, by branch and bound over sets of "this bidder in this slot".
//!
//! A pair of bidder and slot is one bit of a word, a byte a slot, bidders by rank (the highest bid in the lowest bit). What is still
//! open after some choices is one word, and a choice closes what it clashes with by one mask. Two searches: the first, the highest bids
//! first, finds the largest total (its first page is the greedy one); the second goes in dictionary order and stops at the first page
//! with that total.

use crate::read::{constraint, words, Parts};

/// "The best page is sought with n above 8 or m above 8" is refused.
pub const MOST: usize = 8;

/// One bidder in every slot.
const ALL_SLOTS: u64 = 0x0101_0101_0101_0101;
/// Room for slot and bidder numbers 0 to 8.
const NUMBERS: usize = 16;

/// A round of at most 8 bidders and 8 slots, made ready for the search.
pub struct Search {
    bidders: usize,
    slots: usize,
    effects: [u64; MOST],
    /// By rank.
    bids: [u64; MOST],
    /// By number, from 1.
    ranks: [u8; NUMBERS],
    /// By slot and rank: what is closed once the bidder stands there.
    closed: [[u64; MOST]; MOST],
    /// What is open before any choice.
    open: u64,
}

impl Search {
    /// The round of an accepted sheet, with a floor under each slot or, where the list is empty, under none.
    pub fn of(parts: &Parts, floors: &[u32]) -> Search {
        let (bids, ranks) = ranked(parts);
        let mut effects = [0; MOST];
        for (to, effect) in effects.iter_mut().zip(words(parts.effects)) {
            *to = u64::from(effect);
        }
        let clashes = Clashes::of(parts.constraints, &ranks);
        let row = ALL_SLOTS * ((1 << parts.bidders) - 1);
        let open = row & (u64::MAX >> (64 - 8 * parts.slots)) & !clashes.always() & !below(&bids, floors);
        let closed = clashes.closed(parts.bidders, &ranks);
        Search { bidders: parts.bidders, slots: parts.slots, effects, bids, ranks, closed, open }
    }

    /// The best page's bidders by slot, and its total.
    pub fn best(&self) -> ([u8; MOST], u64) {
        let mut total = 0;
        self.raise(0, self.open, 0, &mut total);
        let mut page = [0; MOST];
        self.first(0, self.open, 0, total, &mut page);
        (page, total)
    }

    /// The most that the slots from `slot` on can add: their effects against the highest bids that are still open, clashes forgotten. The
    /// low byte of `open` is that slot's.
    fn most(&self, slot: usize, open: u64) -> u64 {
        let halves = open | open >> 32;
        let quarters = halves | halves >> 16;
        let mut bidders = (quarters | quarters >> 8) & 255;
        let (mut open, mut slot, mut sum) = (open, slot, 0);
        while bidders != 0 && open != 0 {
            if open & 255 != 0 {
                sum += self.effects[slot & 7] * self.bids[bidders.trailing_zeros() as usize & 7];
                bidders &= bidders - 1;
            }
            open >>= 8;
            slot += 1;
        }
        sum
    }

    /// What is open for the slots after this one, once this one has the bidder of a rank.
    fn after(&self, slot: usize, open: u64, rank: usize) -> u64 {
        (open & !(self.closed[slot & 7][rank & 7] >> (8 * (slot & 7)))) >> 8
    }

    /// Raises the total to the largest that can be had from here, if that is larger.
    fn raise(&self, slot: usize, open: u64, had: u64, total: &mut u64) {
        if open == 0 || slot == self.slots {
            *total = had.max(*total);
            return;
        }
        let mut bidders = open & 255;
        while bidders != 0 {
            let rank = bidders.trailing_zeros() as usize;
            let after = self.after(slot, open, rank);
            let with = had + self.effects[slot & 7] * self.bids[rank & 7];
            if with + self.most(slot + 1, after) > *total {
                self.raise(slot + 1, after, with, total);
            }
            bidders &= bidders - 1;
        }
        if had + self.most(slot + 1, open >> 8) > *total {
            self.raise(slot + 1, open >> 8, had, total);
        }
    }

    /// Writes the first page in dictionary order that has the total, and says whether there is one from here.
    fn first(&self, slot: usize, open: u64, had: u64, total: u64, page: &mut [u8; MOST]) -> bool {
        if open == 0 || slot == self.slots {
            return had == total;
        }
        if had + self.most(slot + 1, open >> 8) >= total && self.first(slot + 1, open >> 8, had, total, page) {
            return true;
        }
        for number in 1..=self.bidders {
            let rank = usize::from(self.ranks[number & (NUMBERS - 1)]);
            let after = self.after(slot, open, rank);
            let with = had + self.effects[slot & 7] * self.bids[rank & 7];
            let reaches = open >> rank & 1 == 1 && with + self.most(slot + 1, after) >= total;
            if reaches && self.first(slot + 1, after, with, total, page) {
                page[slot & 7] = number as u8;
                return true;
            }
        }
        false
    }
}

/// The bids in falling order, equal ones by number, and each number's rank in it.
fn ranked(parts: &Parts) -> ([u64; MOST], [u8; NUMBERS]) {
    let mut keys = [(0, 0); MOST];
    for (at, bid) in words(parts.bids).enumerate() {
        keys[at & 7] = (!bid, at + 1);
    }
    keys[..parts.bidders].sort_unstable();
    let (mut bids, mut ranks) = ([0; MOST], [0; NUMBERS]);
    for (rank, &(complement, number)) in keys[..parts.bidders].iter().enumerate() {
        bids[rank] = u64::from(!complement);
        ranks[number & (NUMBERS - 1)] = rank as u8;
    }
    (bids, ranks)
}

/// The bits of bidders in slots whose floor is above their bid.
fn below(bids: &[u64; MOST], floors: &[u32]) -> u64 {
    let mut below = 0;
    for (slot, &floor) in floors.iter().enumerate() {
        for (rank, &bid) in bids.iter().enumerate() {
            below |= u64::from(bid < u64::from(floor)) << (8 * (slot & 7) + rank);
        }
    }
    below
}

/// What each choice closes, by slot number and bidder number, as the constraints say it. Slot 0 of a bidder holds what it closes from
/// any slot; slot 0 of bidder 0 holds what is closed without any choice.
struct Clashes([u64; NUMBERS * NUMBERS]);

impl Clashes {
    fn of(constraints: &[u8], ranks: &[u8; NUMBERS]) -> Clashes {
        let mut clashes = [0; NUMBERS * NUMBERS];
        let mut owns = [ALL_SLOTS; NUMBERS];
        let mut others = [0; NUMBERS];
        for slot in 1..=MOST {
            owns[slot] = 1 << (8 * (slot - 1));
            others[slot] = owns[slot];
        }
        for word in words(constraints) {
            let of = constraint(word);
            let own = owns[of.own & (NUMBERS - 1)] << ranks[of.owner & (NUMBERS - 1)];
            let other = others[of.slot & (NUMBERS - 1)] << ranks[of.other & (NUMBERS - 1)];
            clashes[(of.slot * NUMBERS + of.other) & 255] |= own;
            clashes[(of.own * NUMBERS + of.owner) & 255] |= other;
        }
        Clashes(clashes)
    }

    fn always(&self) -> u64 {
        self.0[0]
    }

    /// By slot and rank, with the bidder's other slots: no bidder has two.
    fn closed(&self, bidders: usize, ranks: &[u8; NUMBERS]) -> [[u64; MOST]; MOST] {
        let mut closed = [[0; MOST]; MOST];
        for (slot, of_slot) in closed.iter_mut().enumerate() {
            for number in 1..=bidders {
                let rank = ranks[number & (NUMBERS - 1)];
                let clashing = self.0[((slot + 1) * NUMBERS + number) & 255] | self.0[number & 255];
                of_slot[usize::from(rank) & 7] = clashing | ALL_SLOTS << rank;
            }
        }
        closed
    }
}
