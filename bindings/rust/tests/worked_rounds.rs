//! The rounds that document 01 works by hand, its edges, and its wrong engines that look fine on most pages; the ticks of document 02.

use pas::{Bidder, Refusal, Sheet};

mod written;
use written::*;

#[track_caller]
fn plays(sheet: &Sheet, bidders: &[u8], prices: &[u32]) {
    let page = sheet.play();
    assert_eq!(numbers(&page.bidders()), bidders);
    assert_eq!(page.prices(), prices);
}

fn round_b(constraints: &[Written]) -> Sheet {
    sheet(&[60, 40, 10], &[100, 90, 81], constraints)
}

/// "i above j", for places up to the last.
fn above(owner: u8, other: u8, last: u8) -> Vec<Written> {
    (2..=last).flat_map(|own| (1..own).map(move |slot| [owner, own, other, slot])).collect()
}

fn chain(last: u8) -> Vec<Written> {
    (1..=3).flat_map(|owner| above(owner, owner + 1, last)).collect()
}

#[test]
fn a_constraint_on_the_other_alone_binds_its_owner() {
    plays(&sheet(&[30, 20, 10], &[10, 9], &[[1, 0, 2, 1]]), &[1, 2], &[20, 10]);
}

#[test]
fn without_constraints_each_winner_pays_the_next_bid() {
    let sheet = round_b(&[]);
    plays(&sheet, &[1, 2, 3], &[40, 10, 0]);
    assert_eq!(sheet.gain(&sheet, Bidder(1), 60), Ok(2000));
}

#[test]
fn a_list_that_is_not_downward_can_gain() {
    let (told, truth) = (round_b(&[[1, 1, 0, 0]]), round_b(&[]));
    plays(&told, &[2, 1, 3], &[10, 10, 0]);
    assert_eq!(told.gain(&truth, Bidder(1), 60), Ok(4500));
    assert_eq!(told.is_downward(Bidder(1)), Ok(false));
    assert_eq!(truth.is_downward(Bidder(1)), Ok(true));
}

#[test]
fn the_price_is_not_the_bid_of_the_next_slots_winner() {
    let bars = [[2, 0, 3, 1], [2, 0, 3, 2], [2, 0, 3, 3], [3, 0, 2, 1], [3, 0, 2, 2], [3, 0, 2, 3]];
    plays(&sheet(&[40, 30, 20, 10], &[100, 90, 81], &bars), &[1, 2, 4], &[30, 20, 0]);
}

#[test]
fn equal_bids_go_to_the_lower_number() {
    plays(&sheet(&[5, 5], &[1], &[]), &[1], &[5]);
}

#[test]
fn a_lower_numbered_rival_must_be_outbid() {
    let (played, truth) = (sheet(&[5, 6], &[1], &[]), sheet(&[5, 6], &[1], &[[2, 1, 0, 0]]));
    plays(&played, &[2], &[6]);
    assert_eq!(played.gain(&played, Bidder(2), 6), Ok(0));
    assert_eq!(played.gain(&truth, Bidder(2), 6), Ok(-6));
    assert_eq!(played.gain(&truth, Bidder(1), 6), Ok(0), "a bidder without a slot gains nothing");
}

#[test]
fn a_lower_numbered_rival_must_be_outbid_by_a_whole_tick() {
    let sheet = in_ticks(3, &[3, 6], &[1]);
    plays(&sheet, &[2], &[6]);
    assert_eq!(sheet.gain(&sheet, Bidder(2), 6), Ok(0));
    plays(&in_ticks(3, &[3, 12], &[1]), &[2], &[6]);
    plays(&in_ticks(1, &[5, 6], &[1]), &[2], &[6]);
}

#[test]
fn a_higher_numbered_rival_asks_its_bid_and_no_tick_more() {
    plays(&in_ticks(3, &[12, 6], &[1]), &[1], &[6]);
}

#[test]
fn equal_bids_in_ticks_go_to_the_lower_number_and_cost_the_whole_bid() {
    plays(&in_ticks(5, &[5, 5], &[1]), &[1], &[5]);
    plays(&in_ticks(3, &[3, 6, 6], &[1, 1]), &[2, 3], &[6, 6]);
}

#[test]
fn a_tick_may_be_above_every_bid() {
    plays(&in_ticks(1_000_000_000, &[0, 0], &[1, 1]), &[1, 2], &[0, 0]);
    plays(&in_ticks(1_000_000_000, &[0, 1_000_000_000], &[1]), &[2], &[1_000_000_000]);
}

#[test]
fn ticks_change_prices_and_neither_page_nor_best_page() {
    let sheet = round(&[30, 32, 36, 40], &[10_000, 4_500, 2_025], &chain(3)).tick(2).build().expect("even bids");
    plays(&sheet, &[4, 2, 0], &[38, 32, 0]);
    let best = sheet.best_page().expect("four bidders, three slots");
    assert_eq!((numbers(&best.bidders), best.total), (vec![3, 4, 1], 600_750));
    assert_eq!(sheet.is_downward(Bidder(1)), Ok(true));
}

#[test]
fn the_truth_sheet_may_have_another_tick() {
    let played = in_ticks(3, &[3, 6], &[1]);
    let truth = round(&[7, 14], &[1], &[[2, 1, 0, 0]]);
    assert_eq!(played.gain(&truth.clone().build().expect("version 1"), Bidder(2), 9), Ok(-6));
    assert_eq!(played.gain(&truth.tick(7).build().expect("multiples of 7"), Bidder(2), 9), Ok(-6));
    assert_eq!(played.gain(&in_ticks(1_000_000_000, &[0, 0], &[5]), Bidder(2), 9), Ok(3), "effects are those of the played sheet");
}

#[test]
fn the_page_goes_on_after_an_empty_slot() {
    plays(&sheet(&[0], &[1, 1], &[[1, 1, 0, 0]]), &[0, 1], &[0, 0]);
}

#[test]
fn the_best_page_need_not_be_the_greedy_one() {
    let sheet = sheet(&[30, 32, 36, 40], &[10_000, 4_500, 2_025], &chain(3));
    plays(&sheet, &[4, 2, 0], &[37, 31, 0]);
    let best = sheet.best_page().expect("four bidders, three slots");
    assert_eq!((numbers(&best.bidders), best.total), (vec![3, 4, 1], 600_750));
}

#[test]
fn the_best_page_need_not_be_full() {
    let best = sheet(&[30, 32, 36, 40], &[10_000, 4_500, 2_025, 911], &chain(4)).best_page().expect("a small round");
    assert_eq!((numbers(&best.bidders), best.total), (vec![3, 4, 1, 0], 600_750));
}

#[test]
fn earlier_winners_constraints_bar_later_bidders() {
    plays(&sheet(&[2, 1], &[1, 1], &[[1, 0, 2, 2]]), &[1, 0], &[1, 0]);
}

#[test]
fn a_pair_that_names_one_slot_twice_is_never_broken() {
    let sheet = sheet(&[2, 1], &[1, 1], &[[1, 1, 2, 1], [2, 2, 1, 2]]);
    plays(&sheet, &[1, 2], &[1, 0]);
    assert_eq!(numbers(&sheet.best_page().expect("a small round").bidders), [1, 2]);
}

#[test]
fn among_equal_totals_the_first_page_in_dictionary_order_is_best() {
    let best = |bids: &[u32], effects: &[u32]| numbers(&sheet(bids, effects, &[]).best_page().expect("a small round").bidders);
    assert_eq!(best(&[5, 5], &[1, 1]), [1, 2]);
    assert_eq!(best(&[0, 0], &[1, 1]), [0, 0], "bids of 0 add nothing, and 0 comes first");
}

#[test]
fn nine_bytes_are_the_fewest() {
    assert_eq!(pas::check(&[]), Err(Refusal::SheetTooShort));
    assert_eq!(pas::check(b"PAS\x01\x00\x01\x01\x00"), Err(Refusal::SheetTooShort));
    assert_eq!(pas::check(b"PAS\x01\x00\x01\x01\x00\x00"), Err(Refusal::WrongLength));
}

#[test]
fn versions_are_1_and_2() {
    for version in [b"\x00\x00", b"\x03\x00", b"\x01\x01", b"\x02\x01", b"\x00\x02"] {
        let nine_bytes = [b"PAS".as_slice(), version, &[0; 4]].concat();
        assert_eq!(pas::check(&nine_bytes), Err(Refusal::WrongVersion), "{version:?}");
    }
}

#[test]
fn thirteen_bytes_are_the_fewest_of_version_2() {
    let header = b"PAS\x02\x00\x01\x01\x00\x00\x01\x00\x00\x00";
    for length in 9..13 {
        assert_eq!(pas::check(&header[..length]), Err(Refusal::SheetTooShort), "{length} bytes");
    }
    assert_eq!(pas::check(header), Err(Refusal::WrongLength));
    assert_eq!(pas::check(b"PAS\x02\x00\x00\x00\x00\x00"), Err(Refusal::SheetTooShort), "before 4");
}

#[test]
fn ticks_are_from_1_to_a_thousand_million() {
    for tick in [1, 1_000_000_000] {
        assert_eq!(in_ticks(tick, &[0], &[1]).tick(), tick);
    }
    for tick in [0, 1_000_000_001, u32::MAX] {
        assert_eq!(round(&[0], &[1], &[]).tick(tick).build(), Err(Refusal::WrongTick), "{tick}");
    }
}

#[test]
fn the_tick_is_judged_after_the_counts_and_before_the_length() {
    let mut bytes = round(&[0], &[1], &[]).tick(0).bytes();
    bytes.push(0);
    assert_eq!(pas::check(&bytes), Err(Refusal::WrongTick));
    let over: Vec<Written> = (1..=5).flat_map(|owner| (0..=255).map(move |own| [owner, own, 0, 0])).take(1025).collect();
    assert_eq!(round(&[0], &[1], &over).tick(0).build(), Err(Refusal::TooManyConstraints));
}

#[test]
fn every_bid_is_a_multiple_of_the_tick() {
    for bids in [[1, 3], [3, 1], [3, 5], [1_000_000_000, 3]] {
        assert_eq!(round(&bids, &[1], &[]).tick(3).build(), Err(Refusal::BidOffTick), "{bids:?}");
    }
    plays(&in_ticks(3, &[999_999_999, 0], &[1]), &[1], &[0]);
}

#[test]
fn all_bids_are_held_to_the_largest_before_any_is_held_to_the_tick() {
    let refused = |bids: [u32; 2], effect, constraints: &[Written]| round(&bids, &[effect], constraints).tick(3).build();
    assert_eq!(refused([4, 1_000_000_001], 1, &[]), Err(Refusal::WrongBid));
    assert_eq!(refused([1_000_000_001, 4], 1, &[]), Err(Refusal::WrongBid));
    assert_eq!(refused([4, 6], 0, &[]), Err(Refusal::WrongEffect));
    assert_eq!(refused([3, 7], 1, &[[3, 1, 0, 0]]), Err(Refusal::BidOffTick), "before 10");
}

#[test]
fn the_highest_bid_is_a_thousand_million() {
    plays(&sheet(&[1_000_000_000], &[1], &[]), &[1], &[0]);
    assert_eq!(round(&[1_000_000_001], &[1], &[]).build(), Err(Refusal::WrongBid));
}

#[test]
fn effects_are_from_1_to_a_million_and_do_not_rise() {
    plays(&sheet(&[1], &[1_000_000, 1], &[]), &[1, 0], &[0, 0]);
    for effects in [[1_000_001, 1], [1, 0], [1, 2]] {
        assert_eq!(round(&[1], &effects, &[]).build(), Err(Refusal::WrongEffect), "{effects:?}");
    }
}

#[test]
fn a_sheet_holds_1024_constraints() {
    let full = vec![[1, 1, 0, 0]; 1024];
    assert_eq!(sheet(&[1], &[1], &full).constraints(), 1024);
    let over = vec![[1, 1, 0, 0]; 1025];
    assert_eq!(round(&[1], &[1], &over).build(), Err(Refusal::TooManyConstraints));
}

#[test]
fn the_best_page_is_for_eight_bidders_and_eight_slots() {
    assert!(sheet(&[1; 8], &[1; 8], &[]).best_page().is_ok());
    assert_eq!(sheet(&[1; 9], &[1; 8], &[]).best_page(), Err(Refusal::TooLargeForBest));
    assert_eq!(sheet(&[1; 8], &[1; 9], &[]).best_page(), Err(Refusal::TooLargeForBest));
    assert_eq!(sheet(&[1; 9], &[1; 8], &[]).best_into(&mut []), Err(Refusal::TooLargeForBest), "18 comes before 19");
}

#[test]
fn a_result_buffer_may_be_just_long_enough_and_no_byte_behind_it_changes() {
    let sheet = sheet(&[5, 6], &[1, 1], &[]);
    assert_eq!(sheet.play_into(&mut [7; 9]), Err(Refusal::ResultTooShort));
    assert_eq!(sheet.play_into(&mut [7; 10]), Ok(()));
    let mut result = [7; 12];
    assert_eq!(sheet.play_into(&mut result), Ok(()));
    assert_eq!(result, [2, 6, 0, 0, 0, 1, 0, 0, 0, 0, 7, 7]);
    assert_eq!(sheet.best_into(&mut [7; 1]), Err(Refusal::ResultTooShort));
    let mut best = [7; 3];
    assert_eq!(sheet.best_into(&mut best), Ok(11));
    assert_eq!(best, [1, 2, 7]);
}

#[test]
fn the_call_of_a_gain_is_refused_by_the_first_rule_that_it_breaks() {
    let (good, bad) = (round_b(&[]), b"PAS".as_slice());
    let other_size = sheet(&[1, 2], &[1], &[]);
    let gain = |played: &[u8], truth: &[u8], bidder, worth| pas::gain(played, truth, Bidder(bidder), worth);
    let too_much = 1_000_000_001;
    assert_eq!(gain(bad, bad, 0, too_much), Err(Refusal::SheetTooShort));
    let of_three = |bid| round(&[bid, 3, 3], &[3, 2, 1], &[]);
    for truth in [bad, &of_three(3).tick(0).bytes(), &of_three(4).tick(3).bytes(), b"PAS\x02\x00\x03\x03\x00\x00"] {
        assert_eq!(gain(good.as_bytes(), truth, 0, too_much), Err(Refusal::TruthRefused), "{truth:?}");
    }
    assert_eq!(gain(good.as_bytes(), other_size.as_bytes(), 0, too_much), Err(Refusal::TruthDiffers));
    assert_eq!(gain(good.as_bytes(), good.as_bytes(), 0, too_much), Err(Refusal::WrongBidder));
    assert_eq!(gain(good.as_bytes(), good.as_bytes(), 4, too_much), Err(Refusal::WrongBidder));
    assert_eq!(gain(good.as_bytes(), good.as_bytes(), 3, too_much), Err(Refusal::WrongWorth));
    assert_eq!(gain(good.as_bytes(), good.as_bytes(), 3, 1_000_000_000), Ok(81_000_000_000));
}

#[test]
fn constraints_are_taken_in_sheet_order_each_through_10_to_13() {
    let refused = |constraints: &[Written]| round(&[1, 1], &[1], constraints).build().expect_err("a bad constraint").number();
    let half = [1, 1, 2, 0];
    assert_eq!(refused(&[[3, 1, 0, 0]]), 10);
    assert_eq!(refused(&[[1, 1, 1, 1]]), 11);
    assert_eq!(refused(&[[1, 0, 0, 0]]), 13);
    assert_eq!(refused(&[[1, 0, 0, 0], [0, 1, 0, 0]]), 13);
    let mut bytes = sheet(&[1, 1], &[1], &[[1, 1, 0, 0], [2, 1, 0, 0]]).as_bytes().to_vec();
    let at = bytes.len() - 8;
    bytes[at..at + 4].copy_from_slice(&half);
    bytes[at + 4] = 0;
    assert_eq!(pas::check(&bytes), Err(Refusal::HalfAnOther), "the first constraint's 12 comes before the second's 10");
}
