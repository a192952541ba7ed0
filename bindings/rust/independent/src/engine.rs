//! The fourteen calls over bytes that nobody has checked, for speed. Each returns 0, or the first number of documents 01 and 02 that applies,
//! and then leaves everything lent as it was.

use crate::best::{Search, MOST};
use crate::canonical;
use crate::fill::fill;
use crate::loss;
use crate::read::{accept, accept_floors, constraint, word_at, words, Parts, LARGEST_BID, MOST_BIDDERS, MOST_SLOTS};
use crate::rivals;
use crate::terms;

/// Rules 1 to 13 and 26 to 28.
pub fn check(sheet: &[u8]) -> u32 {
    accept(sheet).err().unwrap_or(0)
}

/// Writes 5 bytes a slot: the bidder (0 if empty) and the price.
pub fn play(sheet: &[u8], result: &mut [u8]) -> u32 {
    let parts = match accept(sheet) {
        Ok(parts) => parts,
        Err(number) => return number,
    };
    write_page(&parts, &[], result)
}

/// The same with a floor under each slot: 30 and 31 after the sheet's numbers.
pub fn play_floors(sheet: &[u8], floors: &[u32], result: &mut [u8]) -> u32 {
    let parts = match accept_floors(sheet, floors) {
        Ok(parts) => parts,
        Err(number) => return number,
    };
    write_page(&parts, floors, result)
}

/// Plays an accepted sheet, where there is room for the page.
fn write_page(parts: &Parts, floors: &[u32], result: &mut [u8]) -> u32 {
    let Some(written) = result.get_mut(..5 * parts.slots) else { return 19 };
    let page = fill(parts, floors);
    for ((to, bidder), price) in written.chunks_exact_mut(5).zip(page.bidders).zip(page.prices) {
        to[0] = bidder;
        to[1..].copy_from_slice(&price.to_le_bytes());
    }
    0
}

/// Answers 1 where the bidder's list is downward monotonic, else 0.
pub fn downward(sheet: &[u8], bidder: u32, answer: &mut u8) -> u32 {
    let parts = match accept(sheet) {
        Ok(parts) => parts,
        Err(number) => return number,
    };
    if bidder == 0 || bidder > parts.bidders as u32 {
        return 16;
    }
    *answer = u8::from(is_downward(&parts, bidder));
    0
}

/// For each other part, the own slots with which the bidder lists it are one word; every slot but the last asks for the next one.
fn is_downward(parts: &Parts, bidder: u32) -> bool {
    // An other's slot is never 0 where there is an other, so that slot 16 of one bidder and slot 0 of the next do not meet.
    const OTHERS: usize = 16 * MOST_BIDDERS + MOST_SLOTS + 1;
    let place = |word: u32| (16 * (word >> 16 & 255) + (word >> 24)) as usize;
    let mut listed = [0u32; OTHERS];
    let own = || words(parts.constraints).filter(|word| word & 255 == bidder);
    for word in own() {
        listed[place(word)] |= 1 << (word >> 8 & 31);
    }
    let asking = (1 << parts.slots) - 2;
    own().all(|word| {
        let slots = listed[place(word)];
        (slots & asking) << 1 & !slots == 0
    })
}

/// The bidder's gain from the played sheet at a worth per click, by its constraints in the truth sheet.
pub fn gain(played: &[u8], truth: &[u8], bidder: u32, worth: u32, gain: &mut i64) -> u32 {
    let parts = match accept(played) {
        Ok(parts) => parts,
        Err(number) => return number,
    };
    write_gain(&parts, &[], truth, bidder, worth, gain)
}

/// The same with a floor under each slot of the played sheet: 30 and 31 before 14.
pub fn gain_floors(played: &[u8], floors: &[u32], truth: &[u8], bidder: u32, worth: u32, gain: &mut i64) -> u32 {
    let parts = match accept_floors(played, floors) {
        Ok(parts) => parts,
        Err(number) => return number,
    };
    write_gain(&parts, floors, truth, bidder, worth, gain)
}

/// Gives the gain from an accepted sheet, where the truth sheet and the numbers of the call are right.
fn write_gain(parts: &Parts, floors: &[u32], truth: &[u8], bidder: u32, worth: u32, gain: &mut i64) -> u32 {
    let Ok(truth) = accept(truth) else { return 14 };
    if (truth.bidders, truth.slots) != (parts.bidders, parts.slots) {
        return 15;
    }
    if bidder == 0 || bidder > parts.bidders as u32 {
        return 16;
    }
    if worth > LARGEST_BID {
        return 17;
    }
    *gain = gained(parts, floors, &truth, bidder, worth);
    0
}

fn gained(played: &Parts, floors: &[u32], truth: &Parts, bidder: u32, worth: u32) -> i64 {
    let page = fill(played, floors);
    let Some(at) = page.bidders.iter().position(|&winner| u32::from(winner) == bidder) else { return 0 };
    // Nobody stands in slot 0, so "no other" is found there.
    let mut standing = [0; 32];
    standing[1..=page.bidders.len()].copy_from_slice(&page.bidders);
    let broken = |word: u32| {
        let of = constraint(word);
        let own = of.own == 0 || of.own == at + 1;
        word & 255 == bidder && own && usize::from(standing[of.slot & 31]) == of.other
    };
    let (effect, price) = (i64::from(word_at(played.effects, at)), i64::from(page.prices[at]));
    if words(truth.constraints).any(broken) {
        -(effect * price)
    } else {
        effect * (i64::from(worth) - price)
    }
}

/// Writes the bidder of each slot of the best page and gives the page's total.
pub fn best(sheet: &[u8], result: &mut [u8], total: &mut u64) -> u32 {
    let parts = match accept(sheet) {
        Ok(parts) => parts,
        Err(number) => return number,
    };
    write_best(&parts, &[], result, total)
}

/// The same with a floor under each slot: 30 and 31 before 18.
pub fn best_floors(sheet: &[u8], floors: &[u32], result: &mut [u8], total: &mut u64) -> u32 {
    let parts = match accept_floors(sheet, floors) {
        Ok(parts) => parts,
        Err(number) => return number,
    };
    write_best(&parts, floors, result, total)
}

/// Writes the best page of an accepted sheet, where it is small enough and there is room.
fn write_best(parts: &Parts, floors: &[u32], result: &mut [u8], total: &mut u64) -> u32 {
    if parts.bidders > MOST || parts.slots > MOST {
        return 18;
    }
    let Some(written) = result.get_mut(..parts.slots) else { return 19 };
    let (page, sum) = Search::of(parts, floors).best();
    written.copy_from_slice(&page[..parts.slots]);
    *total = sum;
    0
}

/// Gives how many bytes of the sheet stand before the part with the bidder's constraints, and how many the part has.
pub fn owner_part(sheet: &[u8], bidder: u32, start: &mut usize, length: &mut usize) -> u32 {
    let parts = match accept(sheet) {
        Ok(parts) => parts,
        Err(number) => return number,
    };
    if !parts.ordered {
        return 29;
    }
    if bidder == 0 || bidder > parts.bidders as u32 {
        return 16;
    }
    let all = parts.constraints.as_chunks::<4>().0;
    let first = all.partition_point(|of| u32::from(of[0]) < bidder);
    let owned = all[first..].partition_point(|of| u32::from(of[0]) == bidder);
    *start = sheet.len() - 4 * (all.len() - first);
    *length = 4 * owned;
    0
}

/// Writes the sheet of version 2 that says the same round, with the constraints in order and each once, and gives its length.
pub fn canonical(sheet: &[u8], result: &mut [u8], written: &mut usize) -> u32 {
    let parts = match accept(sheet) {
        Ok(parts) => parts,
        Err(number) => return number,
    };
    let length = if parts.ordered { copy(sheet, result) } else { canonical::write(&parts, result) };
    let Some(length) = length else { return 19 };
    *written = length;
    0
}

/// Copies a sheet of version 2, which is in order already, and gives its length, where there is room for it.
fn copy(sheet: &[u8], result: &mut [u8]) -> Option<usize> {
    result.get_mut(..sheet.len())?.copy_from_slice(sheet);
    Some(sheet.len())
}

/// Writes the constraints of an owner from its limit and the bars against the bidders, four bytes each in order, and gives how many they are.
pub fn slot_terms(n: u32, m: u32, owner: u32, limit: u32, bars: &[u8], result: &mut [u8], count: &mut u32) -> u32 {
    let number = terms::refused(n, m, owner, limit, bars);
    if number != 0 {
        return number;
    }
    let Some(written) = terms::write(m, owner, limit, bars, result) else { return 19 };
    *count = written;
    0
}

/// Writes the constraints of an owner that stands only above its rivals, four bytes each in order, and gives how many they are.
pub fn above_terms(n: u32, m: u32, owner: u32, rivals: &[u8], result: &mut [u8], count: &mut u32) -> u32 {
    let number = rivals::size_refused(n, m);
    if number != 0 {
        return number;
    }
    if owner == 0 || owner > n {
        return 16;
    }
    let Some(set) = rivals::read(n, rivals) else { return 23 };
    if set >> (owner - 1) & 1 != 0 {
        return 24;
    }
    match rivals::write(m, owner, set, result) {
        Ok(written) => *count = written,
        Err(number) => return number,
    }
    0
}

/// Answers 1 where the members could share a page, each above every rival of its own among them, and writes their first such order, a byte a member; else 0.
pub fn share_page(n: u32, m: u32, members: &[u8], rival_sets: &[u8], result: &mut [u8], answer: &mut u8) -> u32 {
    let number = rivals::size_refused(n, m);
    if number != 0 {
        return number;
    }
    let Some(members) = rivals::read(n, members) else { return 23 };
    let sets = match rivals::read_all(n, rival_sets) {
        Ok(sets) => sets,
        Err(number) => return number,
    };
    let order = if members.count_ones() > m { None } else { rivals::order(members, &sets) };
    if let Some((order, count)) = order {
        let Some(written) = result.get_mut(..count) else { return 19 };
        written.copy_from_slice(&order[..count]);
    }
    *answer = u8::from(order.is_some());
    0
}

/// Gives d + 1 where all lists come from "above named rivals", d being the largest number of bidders that name one same rival, and 0 where some list does not.
pub fn loss_bound(sheet: &[u8], factor: &mut u32) -> u32 {
    let parts = match accept(sheet) {
        Ok(parts) => parts,
        Err(number) => return number,
    };
    *factor = loss::factor(&parts);
    0
}

/// Reads the rival sets of n bidders, 1 to 64, to words, a bit for each rival: the benchmark holds sharing against reading alone.
pub fn read_rival_sets(n: u32, rival_sets: &[u8], words: &mut [u64; MOST_BIDDERS]) -> u32 {
    match rivals::read_all(n, rival_sets) {
        Ok(sets) => *words = sets,
        Err(number) => return number,
    }
    0
}
