//! Top-of-page terms: the constraints of an owner from its limit and the bars against the bidders.

use crate::read::{MOST_BIDDERS, MOST_SLOTS};

/// The numbers that come before that of the buffer, in their order: 4, 5, 16, 20, 21, 22; or 0.
pub fn refused(n: u32, m: u32, owner: u32, limit: u32, bars: &[u8]) -> u32 {
    if n == 0 || n > MOST_BIDDERS as u32 {
        return 4;
    }
    if m == 0 || m > MOST_SLOTS as u32 {
        return 5;
    }
    if owner == 0 || owner > n {
        return 16;
    }
    if limit == 0 || limit > m {
        return 20;
    }
    if bars.len() != n as usize || bars.iter().fold(0, |highest, &bar| highest.max(bar)) > m as u8 {
        return 21;
    }
    if bars[owner as usize - 1] != 0 {
        return 22;
    }
    0
}

/// Writes the constraints of terms that are not refused and gives how many they are; where there is no room for them, nothing. Without an own slot, which
/// is byte 0, a constraint comes before those with one.
pub fn write(m: u32, owner: u32, limit: u32, bars: &[u8], result: &mut [u8]) -> Option<u32> {
    let barred: usize = bars.iter().map(|&bar| usize::from(bar)).sum();
    let count = barred + (m - limit) as usize;
    let (mut rest, _) = result.get_mut(..4 * count)?.as_chunks_mut::<4>();
    // A constraint is one word, low byte first, so that the compiler writes several at once.
    for (other, &bar) in (1..).zip(bars) {
        let (of_bar, later) = rest.split_at_mut(usize::from(bar));
        let pair: u32 = owner | other << 16;
        for (slot, to) in (1..).zip(of_bar) {
            *to = (pair | slot << 24).to_le_bytes();
        }
        rest = later;
    }
    for (own, to) in (limit + 1..).zip(rest) {
        *to = (owner | own << 8).to_le_bytes();
    }
    Some(count as u32)
}
