//! What the greedy page can lose, where all lists come from "above named rivals".

use crate::read::{rise, words, Parts, MOST_BIDDERS, MOST_CONSTRAINTS};
use crate::rivals::bidders;

/// d + 1, d being the largest number of bidders that name one same rival; 0 where some list does not come from the profile.
pub fn factor(parts: &Parts) -> u32 {
    if !rivals_are_above(parts.constraints) {
        return 0;
    }
    let rivals = named(parts.constraints);
    let rivals = &rivals[..parts.bidders];
    let names: u32 = rivals.iter().map(|set| set.count_ones()).sum();
    let whole = names as usize * pairs_above(parts.slots);
    let count = parts.constraints.len() / 4;
    // Where no constraint repeats their number tells, and in order none does.
    let none_repeats = parts.ordered || rise(parts.constraints);
    let all = if none_repeats { whole == count } else { whole <= count && has_every_pair(parts, rivals, whole) };
    if all {
        1 + most_namers(rivals)
    } else {
        0
    }
}

/// How many pairs of slots have the first below the second, of so many slots.
const fn pairs_above(slots: usize) -> usize {
    slots * slots.saturating_sub(1) / 2
}

/// Each constraint is a pair with the rival above the owner. Straight-line, so that the compiler takes several at once.
fn rivals_are_above(constraints: &[u8]) -> bool {
    let is_other = |word: u32| (word >> 24 == 0) | (word >> 24 >= (word >> 8 & 255));
    !words(constraints).fold(false, |other, word| other | is_other(word))
}

/// The owner and the rival of a pair, each from 0.
fn name(word: u32) -> (usize, usize) {
    (((word - 1) & 63) as usize, (((word >> 16) - 1) & 63) as usize)
}

/// Whom each bidder names in pairs, a bit for each.
fn named(constraints: &[u8]) -> [u64; MOST_BIDDERS] {
    let mut rivals = [0; MOST_BIDDERS];
    for (owner, rival) in words(constraints).map(name) {
        rivals[owner] |= 1 << rival;
    }
    rivals
}

/// By own slot, how many pairs have an own slot above it.
const PAIRS_BEFORE: [u16; 32] = {
    let (mut before, mut own) = ([0; 32], 1);
    while own < 32 {
        before[own] = pairs_above(own - 1) as u16;
        own += 1;
    }
    before
};

/// Every pair of slots is there for each bidder and each rival that it names: `whole` constraints, which are no more than a sheet can have. Each has an index of its
/// own, and is ticked off there.
fn has_every_pair(parts: &Parts, rivals: &[u64], whole: usize) -> bool {
    let (mut first, mut next) = ([[0u16; MOST_BIDDERS]; MOST_BIDDERS], 0);
    for (of_owner, &set) in first.iter_mut().zip(rivals) {
        for rival in bidders(set) {
            of_owner[rival as usize - 1] = next;
            next += pairs_above(parts.slots) as u16;
        }
    }
    let mut seen = [0u8; MOST_CONSTRAINTS];
    for word in words(parts.constraints) {
        let (owner, rival) = name(word);
        let index = first[owner][rival] + PAIRS_BEFORE[(word >> 8 & 31) as usize] + (word >> 24) as u16 - 1;
        seen[usize::from(index)] = 1;
    }
    seen[..whole].iter().fold(1, |all, &one| all & one) == 1
}

/// The largest number of bidders that name one same rival.
fn most_namers(rivals: &[u64]) -> u32 {
    let mut namers = [0; MOST_BIDDERS];
    for rival in rivals.iter().flat_map(|&set| bidders(set)) {
        namers[rival as usize - 1] += 1;
    }
    namers.into_iter().fold(0, u32::max)
}
