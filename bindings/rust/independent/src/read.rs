//! The sheet's check, and the parts of an accepted sheet. Every call reads bytes that nobody has checked, so this comes first in each.

/// "n, bidders, 1 to 64".
pub const MOST_BIDDERS: usize = 64;
/// "m, places, 1 to 16".
pub const MOST_SLOTS: usize = 16;
/// "c, conditions, 0 to 1,024".
pub const MOST_CONSTRAINTS: usize = 1024;
const LARGEST_EFFECT: u32 = 1_000_000;
/// The largest bid, the largest worth of a click, the largest tick and the largest floor.
pub const LARGEST_BID: u32 = 1_000_000_000;
const HEADER_BYTES: usize = 9;
const TICK_BYTES: usize = 4;

/// An accepted sheet: its counts, its tick (1 in version 1), and its three lists still in bytes, four to an entry.
#[derive(Clone, Copy)]
pub struct Parts<'a> {
    /// Version 2, where the constraints stand in order.
    pub ordered: bool,
    pub bidders: usize,
    pub slots: usize,
    pub tick: u32,
    pub effects: &'a [u8],
    pub bids: &'a [u8],
    pub constraints: &'a [u8],
}

/// A condition of document 01, its four bytes apart.
#[derive(Clone, Copy)]
pub struct Constraint {
    pub owner: usize,
    pub own: usize,
    pub other: usize,
    pub slot: usize,
}

/// The low-byte-first words of a list.
pub fn words(list: &[u8]) -> impl ExactSizeIterator<Item = u32> + '_ {
    list.as_chunks().0.iter().map(|word| u32::from_le_bytes(*word))
}

/// The word at a position of a list.
pub fn word_at(list: &[u8], at: usize) -> u32 {
    let word = &list[4 * at..4 * at + 4];
    u32::from_le_bytes([word[0], word[1], word[2], word[3]])
}

/// The constraint that a word holds.
pub fn constraint(word: u32) -> Constraint {
    let [owner, own, other, slot] = word.to_le_bytes().map(usize::from);
    Constraint { owner, own, other, slot }
}

/// The parts of a sheet that breaks none of the rules 1 to 13 and 26 to 28, or the first number that applies.
pub fn accept(sheet: &[u8]) -> Result<Parts<'_>, u32> {
    let parts = split(sheet)?;
    if !effects_stand(parts.effects) {
        return Err(8);
    }
    if words(parts.bids).fold(0, u32::max) > LARGEST_BID {
        return Err(9);
    }
    if parts.tick > 1 && !are_multiples(parts.bids, parts.tick) {
        return Err(27);
    }
    let (bidders, slots) = (parts.bidders as u32, parts.slots as u32);
    // One pass without a branch for the usual sheet; only a refused one is gone through again, for its number.
    if words(parts.constraints).fold(false, |bad, word| bad | is_bad(word, bidders, slots)) {
        return Err(first_bad(&parts));
    }
    if parts.ordered && !rise(parts.constraints) {
        return Err(28);
    }
    Ok(parts)
}

/// The same, and then 30 for a list of floors "that is not m long" and 31 for "a floor above 1,000,000,000".
pub fn accept_floors<'a>(sheet: &'a [u8], floors: &[u32]) -> Result<Parts<'a>, u32> {
    let parts = accept(sheet)?;
    if floors.len() != parts.slots {
        return Err(30);
    }
    if floors.iter().fold(0, |highest, &floor| highest.max(floor)) > LARGEST_BID {
        return Err(31);
    }
    Ok(parts)
}

/// Rules 1 to 7, with 1 again after 3 and 26 after 6.
fn split(sheet: &[u8]) -> Result<Parts<'_>, u32> {
    let Some((header, rest)) = sheet.split_first_chunk::<HEADER_BYTES>() else { return Err(1) };
    if header[..3] != *b"PAS" {
        return Err(2);
    }
    let (ordered, tick, body) = match header[3..5] {
        [1, 0] => (false, 1, rest),
        [2, 0] => {
            let Some((tick, body)) = rest.split_first_chunk::<TICK_BYTES>() else { return Err(1) };
            (true, u32::from_le_bytes(*tick), body)
        }
        _ => return Err(3),
    };
    let (bidders, slots) = (usize::from(header[5]), usize::from(header[6]));
    let constraints = usize::from(u16::from_le_bytes([header[7], header[8]]));
    if bidders == 0 || bidders > MOST_BIDDERS {
        return Err(4);
    }
    if slots == 0 || slots > MOST_SLOTS {
        return Err(5);
    }
    if constraints > MOST_CONSTRAINTS {
        return Err(6);
    }
    if tick == 0 || tick > LARGEST_BID {
        return Err(26);
    }
    if body.len() != 4 * (slots + bidders + constraints) {
        return Err(7);
    }
    let (effects, rest) = body.split_at(4 * slots);
    let (bids, constraints) = rest.split_at(4 * bidders);
    Ok(Parts { ordered, bidders, slots, tick, effects, bids, constraints })
}

/// Rule 8 holds of every effect.
fn effects_stand(effects: &[u8]) -> bool {
    let mut before = LARGEST_EFFECT;
    let mut stand = true;
    for effect in words(effects) {
        stand &= effect != 0 && effect <= before;
        before = effect;
    }
    stand
}

/// Every bid is a multiple of the tick, told without a division for each: with the reciprocal rounded up to 64 bits, a word's product wraps
/// to less than the reciprocal exactly where the division has no rest (Lemire, Kaser and Kurz, "Faster remainder by direct computation").
fn are_multiples(bids: &[u8], tick: u32) -> bool {
    let reciprocal = u64::MAX / u64::from(tick) + 1;
    words(bids).fold(true, |all, bid| all & (u64::from(bid).wrapping_mul(reciprocal) < reciprocal))
}

/// A constraint breaks one of the rules 10 to 13. Straight-line, so that the compiler takes several constraints at once.
fn is_bad(word: u32, bidders: u32, slots: u32) -> bool {
    let (owner, own, other, slot) = (word & 255, word >> 8 & 255, word >> 16 & 255, word >> 24);
    let out_of_range = (owner == 0) | (owner > bidders) | (other > bidders) | (own > slots) | (slot > slots);
    out_of_range | (other == owner) | ((other == 0) != (slot == 0)) | (word >> 8 == 0)
}

/// Each constraint is above the one before it: "strictly rising order of owner, own place, other bidder, other's place". The first byte of a
/// word is its lowest, so the bytes are turned round; no good constraint is 0.
pub fn rise(constraints: &[u8]) -> bool {
    let mut before = 0;
    let mut rise = true;
    for word in words(constraints) {
        let rank = word.swap_bytes();
        rise &= before < rank;
        before = rank;
    }
    rise
}

/// The number of the first constraint that breaks a rule: 10 to 13 and, where they stand in order, 28.
fn first_bad(parts: &Parts) -> u32 {
    let mut before = 0;
    for word in words(parts.constraints) {
        let number = broken_rule(constraint(word), parts);
        if number != 0 {
            return number;
        }
        let rank = word.swap_bytes();
        if parts.ordered && rank <= before {
            return 28;
        }
        before = rank;
    }
    0
}

/// The first of the rules 10 to 13 that a constraint breaks, or 0.
fn broken_rule(of: Constraint, parts: &Parts) -> u32 {
    let named = of.owner.max(of.other) <= parts.bidders && of.own.max(of.slot) <= parts.slots;
    if of.owner == 0 || !named {
        10
    } else if of.other == of.owner {
        11
    } else if (of.other == 0) != (of.slot == 0) {
        12
    } else if of.own == 0 && of.other == 0 {
        13
    } else {
        0
    }
}
