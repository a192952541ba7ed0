//! Above named rivals: sets of bidders, the constraints of an owner by its rivals, and the first order in which members can share a page.

use crate::read::{MOST_BIDDERS, MOST_CONSTRAINTS, MOST_SLOTS};

/// The set that a list of numbers names, a bit for each bidder, bidder 1's the lowest; none where a number is 0 or above n.
pub fn read(n: u32, list: &[u8]) -> Option<u64> {
    let (mut set, mut wrong) = (0, false);
    // Without a branch: what a wrong number sets does not matter.
    for &bidder in list {
        let at = bidder.wrapping_sub(1);
        wrong |= u32::from(at) >= n;
        set |= 1 << (at & 63);
    }
    (!wrong).then_some(set)
}

/// The rival sets of n bidders, which stand one after another, each with its length before it; or 23 or 24.
pub fn read_all(n: u32, rival_sets: &[u8]) -> Result<[u64; MOST_BIDDERS], u32> {
    let (mut sets, mut own, mut rest) = ([0; MOST_BIDDERS], false, rival_sets);
    for (at, set) in sets[..n as usize].iter_mut().enumerate() {
        let (&length, after) = rest.split_first().ok_or(23u32)?;
        let (list, after) = after.split_at_checked(usize::from(length)).ok_or(23u32)?;
        *set = read(n, list).ok_or(23u32)?;
        own |= *set >> at & 1 != 0;
        rest = after;
    }
    match (rest.is_empty(), own) {
        (false, _) => Err(23),
        (true, true) => Err(24),
        (true, false) => Ok(sets),
    }
}

/// 4 and 5, or 0.
pub fn size_refused(n: u32, m: u32) -> u32 {
    if n == 0 || n > MOST_BIDDERS as u32 {
        return 4;
    }
    if m == 0 || m > MOST_SLOTS as u32 {
        return 5;
    }
    0
}

/// The bidders of a set, in rising order.
pub fn bidders(set: u64) -> impl Iterator<Item = u32> {
    let next = |left: &u64| Some(left & (left - 1)).filter(|&rest| rest != 0);
    let from = Some(set).filter(|&set| set != 0);
    std::iter::successors(from, next).map(|left| left.trailing_zeros() + 1)
}

/// Writes the constraints of an owner by its rivals and gives how many they are; or 25 or 19.
pub fn write(m: u32, owner: u32, rivals: u64, result: &mut [u8]) -> Result<u32, u32> {
    let count = rivals.count_ones() * (m * (m - 1) / 2);
    if count > MOST_CONSTRAINTS as u32 {
        return Err(25);
    }
    let (mut rest, _) = result.get_mut(..4 * count as usize).ok_or(19u32)?.as_chunks_mut::<4>();
    // A constraint is one word, low byte first, so that the compiler writes several at once.
    for own in 2..=m {
        for other in bidders(rivals) {
            let (pairs, later) = rest.split_at_mut(own as usize - 1);
            let without_slot = owner | own << 8 | other << 16;
            for (slot, to) in (1..).zip(pairs) {
                *to = (without_slot | slot << 24).to_le_bytes();
            }
            rest = later;
        }
    }
    Ok(count)
}

/// The first order of the members, up to the most slots, in which each stands above every rival of its own among them, with its length; none where
/// there is no such order. Each slot goes to the lowest of those left whom nobody left names.
pub fn order(members: u64, rivals: &[u64; MOST_BIDDERS]) -> Option<([u8; MOST_SLOTS], usize)> {
    let (mut order, mut left) = ([0; MOST_SLOTS], members);
    let count = members.count_ones() as usize;
    for to in &mut order[..count] {
        let named = bidders(left).fold(0, |named, bidder| named | rivals[bidder as usize - 1]);
        let next = bidders(left & !named).next()?;
        *to = next as u8;
        left &= !(1 << (next - 1));
    }
    Some((order, count))
}
