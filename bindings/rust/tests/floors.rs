//! Floors under the slots, request S-7 of document 02: worked rounds, what is turned away and in which order, and what a refused call leaves.

use pas::{raw, Bidder, Kind, Refusal, Sheet, Slot};

mod written;
use written::*;

#[track_caller]
fn plays(sheet: &Sheet, floors: &[u32], bidders: &[u8], prices: &[u32]) {
    let page = sheet.play_floors(floors).expect("a floor for each slot");
    assert_eq!((numbers(&page.bidders()), page.prices()), (bidders.to_vec(), prices.to_vec()));
}

#[track_caller]
fn best(sheet: &Sheet, floors: &[u32], bidders: &[u8], total: u64) {
    let best = sheet.best_page_floors(floors).expect("a small round");
    assert_eq!((numbers(&best.bidders), best.total), (bidders.to_vec(), total));
}

#[test]
fn a_floor_above_every_bid_empties_its_slot_and_the_next_is_still_tried() {
    let sheet = sheet(&[30, 20, 10], &[10, 9, 8], &[]);
    plays(&sheet, &[31, 0, 0], &[0, 1, 2], &[0, 20, 10]);
    plays(&sheet, &[0, 21, 0], &[1, 0, 2], &[20, 0, 10]);
    plays(&sheet, &[31, 31, 31], &[0, 0, 0], &[0, 0, 0]);
}

#[test]
fn a_bid_at_the_floor_reaches_it() {
    let sheet = sheet(&[30], &[1], &[]);
    plays(&sheet, &[29], &[1], &[29]);
    plays(&sheet, &[30], &[1], &[30]);
    plays(&sheet, &[31], &[0], &[0]);
}

#[test]
fn a_floor_above_what_rivals_ask_is_the_price() {
    let sheet = sheet(&[30, 20], &[10, 9], &[]);
    plays(&sheet, &[25, 0], &[1, 2], &[25, 0]);
    plays(&sheet, &[20, 12], &[1, 2], &[20, 12]);
    plays(&sheet, &[19, 0], &[1, 2], &[20, 0]);
}

#[test]
fn a_rival_below_the_floor_asks_nothing() {
    // With a lower number it would have to be outbid: 6 without a floor, and with one up to its own bid.
    let sheet = sheet(&[5, 9], &[1], &[]);
    plays(&sheet, &[5], &[2], &[6]);
    plays(&sheet, &[6], &[2], &[6]);
    plays(&sheet, &[7], &[2], &[7]);
}

#[test]
fn a_floor_between_two_ticks_makes_the_next_tick_the_price() {
    let sheet = in_ticks(5, &[30, 20], &[10, 9]);
    plays(&sheet, &[22, 3], &[1, 2], &[25, 5]);
    plays(&sheet, &[25, 5], &[1, 2], &[25, 5]);
    plays(&sheet, &[26, 16], &[1, 2], &[30, 20]);
    plays(&sheet, &[31, 21], &[0, 1], &[0, 25]);
}

#[test]
fn a_lower_slot_may_cost_more_than_the_one_above_it() {
    // Bidder 2 will not stand at place 1, so that nobody asks anything of bidder 1 there.
    let sheet = sheet(&[30, 20], &[10, 9], &[[2, 1, 0, 0]]);
    plays(&sheet, &[0, 0], &[1, 2], &[0, 0]);
    plays(&sheet, &[5, 15], &[1, 2], &[5, 15]);
}

#[test]
fn floors_may_rise_and_fall_from_slot_to_slot() {
    let sheet = sheet(&[40, 30, 20, 10], &[4, 3, 2, 1], &[]);
    plays(&sheet, &[5, 15, 25, 35], &[1, 2, 0, 0], &[30, 20, 0, 0]);
    plays(&sheet, &[35, 25, 15, 5], &[1, 2, 3, 4], &[35, 25, 15, 5]);
    plays(&sheet, &[35, 31, 25, 0], &[1, 0, 2, 3], &[35, 0, 25, 10]);
}

#[test]
fn who_is_below_the_floor_of_one_slot_may_have_a_later_one() {
    plays(&sheet(&[10, 20], &[3, 2, 1], &[]), &[15, 25, 10], &[2, 0, 1], &[15, 0, 10]);
}

#[test]
fn constraints_count_beside_floors() {
    // Round H: 3 is kept from place 2 by its own condition and 2 by the floor; at place 3 2 is eligible.
    let above = |owner, other| [[owner, 2, other, 1], [owner, 3, other, 1], [owner, 3, other, 2]];
    let chain = [above(1, 2), above(2, 3), above(3, 4)].concat();
    let sheet = sheet(&[30, 32, 36, 40], &[10_000, 4_500, 2_025], &chain);
    plays(&sheet, &[39, 33, 0], &[4, 0, 2], &[39, 0, 31]);
    best(&sheet, &[39, 33, 0], &[4, 0, 2], 464_800);
    best(&sheet, &[36, 0, 0], &[3, 4, 1], 600_750);
}

#[test]
fn the_highest_floor_is_a_thousand_million() {
    plays(&sheet(&[1_000_000_000, 5], &[2, 1], &[]), &[1_000_000_000, 1_000_000_000], &[1, 0], &[1_000_000_000, 0]);
    // Of a tick of 700,000,000 the next multiple is no bid.
    let large = in_ticks(700_000_000, &[700_000_000, 0], &[2, 1]);
    plays(&large, &[1, 0], &[1, 2], &[700_000_000, 0]);
    plays(&large, &[700_000_000, 1], &[1, 0], &[700_000_000, 0]);
    plays(&large, &[700_000_001, 1_000_000_000], &[0, 0], &[0, 0]);
}

#[test]
fn the_best_page_obeys_floors() {
    let sheet = sheet(&[30, 20], &[10, 9], &[]);
    best(&sheet, &[0, 0], &[1, 2], 480);
    best(&sheet, &[0, 20], &[1, 2], 480);
    best(&sheet, &[0, 21], &[2, 1], 470);
    best(&sheet, &[21, 21], &[1, 0], 300);
    best(&sheet, &[31, 0], &[0, 1], 270);
    best(&sheet, &[31, 31], &[0, 0], 0);
}

#[test]
fn on_the_best_page_a_higher_bid_may_stand_lower_where_only_it_reaches_the_floor() {
    let sheet = sheet(&[30, 24], &[10, 9], &[]);
    plays(&sheet, &[0, 25], &[1, 0], &[24, 0]);
    best(&sheet, &[0, 25], &[2, 1], 510);
}

#[test]
fn among_equal_totals_the_first_page_in_dictionary_order_is_best_with_floors_too() {
    let sheet = sheet(&[5, 5], &[1, 1], &[]);
    best(&sheet, &[5, 5], &[1, 2], 10);
    best(&sheet, &[5, 6], &[1, 0], 5);
    best(&sheet, &[6, 5], &[0, 1], 5);
}

#[test]
fn a_gain_is_at_the_price_with_floors() {
    let told = sheet(&[60, 40, 10], &[100, 90, 81], &[]);
    let minds = sheet(&[60, 40, 10], &[100, 90, 81], &[[1, 1, 0, 0]]);
    let gain = |floors: &[u32], truth: &Sheet, bidder| told.gain_floors(floors, truth, Bidder(bidder), 60).expect("a good call");
    assert_eq!(gain(&[0, 0, 0], &told, 1), 2_000);
    assert_eq!(gain(&[50, 0, 0], &told, 1), 1_000);
    assert_eq!(gain(&[50, 0, 0], &minds, 1), -5_000);
    assert_eq!(gain(&[61, 0, 0], &minds, 1), 1_800, "at place 2, which it does not mind");
    assert_eq!(gain(&[61, 61, 61], &told, 1), 0, "it has no place");
    assert_eq!(gain(&[0, 41, 11], &told, 3), 0, "it has no place");
}

#[test]
fn the_truth_sheet_has_no_floors() {
    // Only the played sheet is played; the truth sheet is one on which everybody is below every floor.
    let (played, truth) = (sheet(&[30], &[1], &[]), sheet(&[0], &[1], &[]));
    assert_eq!(played.gain_floors(&[30], &truth, Bidder(1), 30), Ok(0));
    assert_eq!(played.gain_floors(&[20], &truth, Bidder(1), 30), Ok(10));
}

/// The three calls over bytes and with plain numbers, with everything lent to them.
#[derive(Clone, Debug, PartialEq)]
struct Lent {
    page: Vec<u8>,
    gain: i64,
    best: Vec<u8>,
    total: u64,
}

impl Lent {
    fn new(room: usize) -> Lent {
        Lent { page: vec![7; 5 * room], gain: 77, best: vec![7; room], total: 78 }
    }
}

/// What the calls return: play, gain, best. The truth sheet, the bidder and the worth are those of the gain.
fn numbers_of(played: &[u8], floors: &[u32], truth: &[u8], bidder: u32, worth: u32, lent: &mut Lent) -> [u32; 3] {
    [
        raw::play_floors(played, floors, &mut lent.page),
        raw::gain_floors(played, floors, truth, bidder, worth, &mut lent.gain),
        raw::best_floors(played, floors, &mut lent.best, &mut lent.total),
    ]
}

/// All three are refused with the number, whatever else is wrong with the call, and nothing lent has changed.
#[track_caller]
fn all_turned_away(played: &[u8], floors: &[u32], number: u32) {
    let good = sheet(&[3, 2, 1], &[2, 1], &[]);
    for (truth, bidder, worth) in [(b"PAS".as_slice(), 0, u32::MAX), (good.as_bytes(), 1, 1)] {
        for room in [0, 16] {
            let mut lent = Lent::new(room);
            let before = lent.clone();
            assert_eq!(numbers_of(played, floors, truth, bidder, worth, &mut lent), [number; 3], "{floors:?}");
            assert_eq!(lent, before, "a refused call altered something lent");
        }
    }
}

#[test]
fn the_sheets_own_numbers_come_first() {
    let good = || round(&[3, 6, 9], &[2, 1], &[]);
    let with = |at: usize, byte: u8| {
        let mut bytes = good().bytes();
        bytes[at] = byte;
        bytes
    };
    let refused = [
        (b"PAS".to_vec(), 1),
        (with(0, b'Q'), 2),
        (with(3, 3), 3),
        (with(5, 0), 4),
        (with(6, 17), 5),
        (with(8, 5), 6),
        (good().tick(0).bytes(), 26),
        (with(7, 1), 7),
        (round(&[3], &[1, 2], &[]).bytes(), 8),
        (round(&[1_000_000_001], &[1, 1], &[]).bytes(), 9),
        (good().tick(2).bytes(), 27),
        (round(&[3], &[1, 1], &[[2, 1, 0, 0]]).bytes(), 10),
        (round(&[3], &[1, 1], &[[1, 1, 1, 1]]).bytes(), 11),
        (round(&[3, 3], &[1, 1], &[[1, 1, 2, 0], [1, 0, 2, 0]]).bytes(), 12),
        (round(&[3], &[1, 1], &[[1, 0, 0, 0]]).bytes(), 13),
    ];
    for (bytes, number) in refused {
        for floors in [&[][..], &[0, 0], &[0, 1_000_000_001], &[u32::MAX; 3]] {
            all_turned_away(&bytes, floors, number);
        }
    }
    let mut disordered = good().tick(3).constraint(Bidder(1), Kind::OwnSlot(Slot(1))).constraint(Bidder(2), Kind::OwnSlot(Slot(1))).bytes();
    let at = disordered.len() - 8;
    disordered[at] = 2;
    all_turned_away(&disordered, &[u32::MAX; 3], 28);
}

#[test]
fn the_list_must_be_as_long_as_the_page() {
    let sheet = sheet(&[3, 2, 1], &[2, 1], &[]);
    for count in [0, 1, 3, 4, 16, 17, 64, 258] {
        all_turned_away(sheet.as_bytes(), &vec![0; count], 30);
        all_turned_away(sheet.as_bytes(), &vec![u32::MAX; count], 30);
    }
    let largest = round(&[1; 64], &[1; 16], &[]).build().expect("a good sheet");
    all_turned_away(largest.as_bytes(), &[0; 15], 30);
    all_turned_away(largest.as_bytes(), &[0; 17], 30);
    assert_eq!(largest.play_floors(&[0; 16]), Ok(largest.play()));
    assert_eq!(sheet.play_floors(&[0]), Err(Refusal::WrongFloorCount));
    assert_eq!(sheet.gain_floors(&[0; 3], &sheet, Bidder(1), 0), Err(Refusal::WrongFloorCount));
    assert_eq!(sheet.best_page_floors(&[]), Err(Refusal::WrongFloorCount));
}

#[test]
fn no_floor_may_be_above_a_thousand_million() {
    let largest = round(&[1; 64], &[1; 16], &[]).build().expect("a good sheet");
    for at in 0..16 {
        for floor in [1_000_000_001, 1 << 31, u32::MAX] {
            let mut floors = [1_000_000_000; 16];
            floors[at] = floor;
            all_turned_away(largest.as_bytes(), &floors, 31);
        }
    }
    let sheet = sheet(&[3, 2, 1], &[2, 1], &[]);
    assert_eq!(sheet.play_floors(&[1_000_000_000; 2]).map(|page| page.prices()), Ok(vec![0, 0]));
    assert_eq!(sheet.play_floors(&[0, 1_000_000_001]), Err(Refusal::WrongFloor));
    assert_eq!(sheet.gain_floors(&[1_000_000_001, 0], &sheet, Bidder(1), 0), Err(Refusal::WrongFloor));
    assert_eq!(sheet.best_page_floors(&[1_000_000_001, 0]), Err(Refusal::WrongFloor));
}

#[test]
fn with_good_floors_the_other_numbers_come_in_their_order() {
    let (good, floors, too_much) = (sheet(&[3, 2, 1], &[2, 1], &[]), [2, 1], 1_000_000_001);
    let other_size = sheet(&[3, 2], &[2, 1], &[]);
    let gain = |truth: &[u8], bidder, worth| {
        let mut lent = Lent::new(2);
        let [_, number, _] = numbers_of(good.as_bytes(), &floors, truth, bidder, worth, &mut lent);
        assert!(number == 0 || lent.gain == 77, "a refused call altered the gain");
        number
    };
    assert_eq!(gain(b"PAS", 0, too_much), 14);
    assert_eq!(gain(other_size.as_bytes(), 0, too_much), 15);
    assert_eq!(gain(good.as_bytes(), 0, too_much), 16);
    assert_eq!(gain(good.as_bytes(), 4, too_much), 16);
    assert_eq!(gain(good.as_bytes(), 3, too_much), 17);
    assert_eq!(gain(good.as_bytes(), 3, too_much - 1), 0);
    assert_eq!(good.play_floors_into(&floors, &mut [7; 9]), Err(Refusal::ResultTooShort));
    assert_eq!(good.best_floors_into(&floors, &mut [7; 1]), Err(Refusal::ResultTooShort));
    let nine = sheet(&[1; 9], &[1; 2], &[]);
    assert_eq!(nine.best_page_floors(&[0; 2]), Err(Refusal::TooLargeForBest));
    assert_eq!(nine.best_floors_into(&[0; 2], &mut []), Err(Refusal::TooLargeForBest), "18 comes before 19");
    let nine_slots = sheet(&[1; 2], &[1; 9], &[]);
    assert_eq!(nine_slots.best_floors_into(&[0; 9], &mut []), Err(Refusal::TooLargeForBest));
}

#[test]
fn a_result_buffer_may_be_just_long_enough_and_no_byte_behind_it_changes() {
    let (sheet, floors) = (sheet(&[5, 6], &[1, 1], &[]), [6, 3]);
    let mut result = [7; 12];
    assert_eq!(sheet.play_floors_into(&floors, &mut result), Ok(()));
    assert_eq!(result, [2, 6, 0, 0, 0, 1, 3, 0, 0, 0, 7, 7]);
    assert_eq!(sheet.play_floors_into(&floors, &mut [7; 10]), Ok(()));
    let mut best = [7; 3];
    assert_eq!(sheet.best_floors_into(&floors, &mut best), Ok(11));
    assert_eq!(best, [2, 1, 7]);
}

#[test]
fn functions_over_bytes_and_methods_of_a_sheet_answer_alike() {
    let (sheet, floors) = (in_ticks(3, &[42, 30, 18], &[4, 2, 1]), [43, 34, 0]);
    let bytes = sheet.as_bytes();
    assert_eq!(pas::play_floors(bytes, &floors), sheet.play_floors(&floors));
    assert_eq!(pas::best_page_floors(bytes, &floors), sheet.best_page_floors(&floors));
    assert_eq!(pas::gain_floors(bytes, &floors, bytes, Bidder(1), 42), sheet.gain_floors(&floors, &sheet, Bidder(1), 42));
    let (mut one, mut other) = ([7; 20], [7; 20]);
    assert_eq!(pas::play_floors_into(bytes, &floors, &mut one), sheet.play_floors_into(&floors, &mut other));
    assert_eq!(pas::best_floors_into(bytes, &floors, &mut one[16..]), sheet.best_floors_into(&floors, &mut other[16..]));
    assert_eq!(one, other);
}
