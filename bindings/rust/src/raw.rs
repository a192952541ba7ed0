//! The fourteen calls with plain numbers, as the C header has them, over slices.
//!
//! Each returns 0, or the number of the first rule that the call breaks, by which [`Refusal`](crate::Refusal) names it; then everything
//! lent stays as it was. This is the only module with `unsafe` in it.

#![allow(unsafe_code)]

use crate::sheet::Bidder;

/// The library's own functions. A pointer must not be null, an answer's and that of floors must be aligned, and what is written must not overlap
/// what is read.
mod library {
    extern "C" {
        pub fn pas_check(sheet: *const u8, sheet_len: usize) -> u32;
        pub fn pas_play(sheet: *const u8, sheet_len: usize, result: *mut u8, result_len: usize) -> u32;
        pub fn pas_downward(sheet: *const u8, sheet_len: usize, bidder: u32, answer: *mut u8) -> u32;
        pub fn pas_gain(
            played: *const u8,
            played_len: usize,
            truth: *const u8,
            truth_len: usize,
            bidder: u32,
            worth: u32,
            gain: *mut i64,
        ) -> u32;
        pub fn pas_best(sheet: *const u8, sheet_len: usize, result: *mut u8, result_len: usize, total: *mut u64) -> u32;
        pub fn pas_owner_part(sheet: *const u8, sheet_len: usize, bidder: u32, start: *mut usize, length: *mut usize) -> u32;
        pub fn pas_play_floors(
            sheet: *const u8,
            sheet_len: usize,
            floors: *const u32,
            floors_len: usize,
            result: *mut u8,
            result_len: usize,
        ) -> u32;
        pub fn pas_gain_floors(
            played: *const u8,
            played_len: usize,
            floors: *const u32,
            floors_len: usize,
            truth: *const u8,
            truth_len: usize,
            bidder: u32,
            worth: u32,
            gain: *mut i64,
        ) -> u32;
        pub fn pas_best_floors(
            sheet: *const u8,
            sheet_len: usize,
            floors: *const u32,
            floors_len: usize,
            result: *mut u8,
            result_len: usize,
            total: *mut u64,
        ) -> u32;
        pub fn pas_canonical(sheet: *const u8, sheet_len: usize, result: *mut u8, result_len: usize, written: *mut usize) -> u32;
        pub fn pas_slot_terms(
            n: u32,
            m: u32,
            owner: u32,
            limit: u32,
            bars: *const u8,
            bars_len: usize,
            result: *mut u8,
            result_len: usize,
            count: *mut u32,
        ) -> u32;
        pub fn pas_above_terms(
            n: u32,
            m: u32,
            owner: u32,
            rivals: *const u8,
            rivals_len: usize,
            result: *mut u8,
            result_len: usize,
            count: *mut u32,
        ) -> u32;
        pub fn pas_share_page(
            n: u32,
            m: u32,
            members: *const u8,
            members_len: usize,
            rival_sets: *const u8,
            rival_sets_len: usize,
            result: *mut u8,
            result_len: usize,
            answer: *mut u8,
        ) -> u32;
        pub fn pas_loss_bound(sheet: *const u8, sheet_len: usize, factor: *mut u32) -> u32;
    }
}

/// Checks a sheet: 1 to 13 or 26 to 28, or 0 for an accepted one.
pub fn check(sheet: &[u8]) -> u32 {
    // SAFETY: a slice's pointer is not null and good for its length; the library only reads it.
    unsafe { library::pas_check(sheet.as_ptr(), sheet.len()) }
}

/// Plays a sheet and writes 5 bytes a slot: the bidder (0 if empty) and the price, low byte first.
pub fn play(sheet: &[u8], result: &mut [u8]) -> u32 {
    // SAFETY: both slices are good for their lengths, and a `&mut` slice overlaps no other.
    unsafe { library::pas_play(sheet.as_ptr(), sheet.len(), result.as_mut_ptr(), result.len()) }
}

/// Answers 1 where the list of a bidder is downward monotonic, else 0.
pub fn downward(sheet: &[u8], bidder: u32, answer: &mut u8) -> u32 {
    // SAFETY: the slice is good for its length, and the answer is a byte that is lent to this call alone.
    unsafe { library::pas_downward(sheet.as_ptr(), sheet.len(), bidder, answer) }
}

/// Gives a bidder's gain from the played sheet at a worth per click, by its constraints in the truth sheet.
pub fn gain(played: &[u8], truth: &[u8], bidder: u32, worth: u32, gain: &mut i64) -> u32 {
    // SAFETY: the slices, which are only read, are good for their lengths, and the gain is an aligned number that is lent to this call
    // alone.
    unsafe { library::pas_gain(played.as_ptr(), played.len(), truth.as_ptr(), truth.len(), bidder, worth, gain) }
}

/// Writes the best page's bidder numbers, a byte a slot (0 for empty), and gives the page's total.
pub fn best(sheet: &[u8], result: &mut [u8], total: &mut u64) -> u32 {
    // SAFETY: both slices are good for their lengths, and a `&mut` slice and a `&mut` number, which is aligned, overlap nothing else.
    unsafe { library::pas_best(sheet.as_ptr(), sheet.len(), result.as_mut_ptr(), result.len(), total) }
}

/// Gives where a bidder's constraints stand in a sheet of version 2: how many bytes of the sheet stand before their part, and how many it has.
pub fn owner_part(sheet: &[u8], bidder: u32, start: &mut usize, length: &mut usize) -> u32 {
    // SAFETY: the slice, which is only read, is good for its length, and both numbers are aligned and lent to this call alone.
    unsafe { library::pas_owner_part(sheet.as_ptr(), sheet.len(), bidder, start, length) }
}

/// Writes the one sheet for a round, of version 2 with the constraints in order and each once, and gives its length.
pub fn canonical(sheet: &[u8], result: &mut [u8], written: &mut usize) -> u32 {
    // SAFETY: both slices are good for their lengths, and a `&mut` slice and a `&mut` number, which is aligned, overlap nothing else.
    unsafe { library::pas_canonical(sheet.as_ptr(), sheet.len(), result.as_mut_ptr(), result.len(), written) }
}

/// Writes a bidder's constraints from its limit and the bars against the bidders of a sheet with n bidders and m slots, four bytes each in rising
/// order, and gives how many they are.
pub fn slot_terms(n: u32, m: u32, owner: u32, limit: u32, bars: &[u8], result: &mut [u8], count: &mut u32) -> u32 {
    // SAFETY: both slices are good for their lengths, and a `&mut` slice and a `&mut` number, which is aligned, overlap nothing else.
    unsafe { library::pas_slot_terms(n, m, owner, limit, bars.as_ptr(), bars.len(), result.as_mut_ptr(), result.len(), count) }
}

/// Writes the constraints of a bidder that stands only above its rivals, for a sheet with n bidders and m slots, four bytes each in rising order, and gives
/// how many they are.
pub fn above_terms(n: u32, m: u32, owner: u32, rivals: &[u8], result: &mut [u8], count: &mut u32) -> u32 {
    // SAFETY: both slices are good for their lengths, and a `&mut` slice and a `&mut` number, which is aligned, overlap nothing else.
    unsafe { library::pas_above_terms(n, m, owner, rivals.as_ptr(), rivals.len(), result.as_mut_ptr(), result.len(), count) }
}

/// Answers 1 where the members could share a page of m slots, each above every rival of its own among them, and writes their first such order, a byte a
/// member; else 0. The rival sets of the n bidders stand one after another, each with its length before it.
pub fn share_page(n: u32, m: u32, members: &[u8], rival_sets: &[u8], result: &mut [u8], answer: &mut u8) -> u32 {
    // SAFETY: the slices are good for their lengths, and a `&mut` slice and a `&mut` byte overlap nothing else.
    unsafe {
        library::pas_share_page(
            n,
            m,
            members.as_ptr(),
            members.len(),
            rival_sets.as_ptr(),
            rival_sets.len(),
            result.as_mut_ptr(),
            result.len(),
            answer,
        )
    }
}

/// Gives how many times the played page's total is at least that of every page, where all lists come from rivals as those of [`above_terms`] do; 0 where they do
/// not.
pub fn loss_bound(sheet: &[u8], factor: &mut u32) -> u32 {
    // SAFETY: the slice, which is only read, is good for its length, and the factor is an aligned number that is lent to this call alone.
    unsafe { library::pas_loss_bound(sheet.as_ptr(), sheet.len(), factor) }
}

/// The numbers of bidders, as the calls take a set of them.
pub(crate) fn numbers(bidders: &[Bidder]) -> &[u8] {
    // SAFETY: a `Bidder` is laid out as the byte that it holds (`repr(transparent)`).
    unsafe { std::slice::from_raw_parts(bidders.as_ptr().cast(), bidders.len()) }
}

/// As [`play`], with a floor under each slot.
pub fn play_floors(sheet: &[u8], floors: &[u32], result: &mut [u8]) -> u32 {
    // SAFETY: the slices are good for their lengths, that of floors is aligned, and a `&mut` slice overlaps no other.
    unsafe { library::pas_play_floors(sheet.as_ptr(), sheet.len(), floors.as_ptr(), floors.len(), result.as_mut_ptr(), result.len()) }
}

/// As [`gain`], with a floor under each slot of the played sheet.
pub fn gain_floors(played: &[u8], floors: &[u32], truth: &[u8], bidder: u32, worth: u32, gain: &mut i64) -> u32 {
    // SAFETY: the slices, which are only read, are good for their lengths, that of floors is aligned, and the gain is an aligned number that is
    // lent to this call alone.
    unsafe {
        library::pas_gain_floors(
            played.as_ptr(),
            played.len(),
            floors.as_ptr(),
            floors.len(),
            truth.as_ptr(),
            truth.len(),
            bidder,
            worth,
            gain,
        )
    }
}

/// As [`best`], with a floor under each slot.
pub fn best_floors(sheet: &[u8], floors: &[u32], result: &mut [u8], total: &mut u64) -> u32 {
    // SAFETY: the slices are good for their lengths, that of floors is aligned, and a `&mut` slice and a `&mut` number, which is aligned, overlap
    // nothing else.
    unsafe {
        library::pas_best_floors(sheet.as_ptr(), sheet.len(), floors.as_ptr(), floors.len(), result.as_mut_ptr(), result.len(), total)
    }
}
