//! One sheet for one round: which bytes are written, which sheets say the same round, and the edges of 19.

mod written;

use pas::{raw, Bidder, Kind, Refusal, Sheet, SheetBuilder, Slot};
use written::{in_ticks, numbers, round, sheet, Written};

const BIDS: [u32; 3] = [50, 40, 30];
const EFFECTS: [u32; 2] = [9, 4];

/// Terms of three bidders for two slots, in order. They differ from one to the next in each of the four numbers.
const TERMS: [Written; 6] = [[1, 0, 3, 2], [1, 2, 0, 0], [1, 2, 2, 1], [1, 2, 3, 1], [2, 1, 1, 2], [3, 0, 1, 1]];

/// The bytes that are expected of the round with the terms: version 2, tick 1.
fn expected() -> Vec<u8> {
    let mut bytes = b"PAS\x02\0\x03\x02\x06\0\x01\0\0\0\x09\0\0\0\x04\0\0\0\x32\0\0\0\x28\0\0\0\x1e\0\0\0".to_vec();
    bytes.extend(TERMS.as_flattened());
    bytes
}

/// A sheet of version 1 with these constraints as they come.
fn free(constraints: &[Written]) -> Sheet {
    sheet(&BIDS, &EFFECTS, constraints)
}

/// Both ways to compare say the same, in both directions.
#[track_caller]
fn compared(one: &Sheet, other: &Sheet) -> bool {
    let same = one.same_round(other);
    assert_eq!(other.same_round(one), same);
    assert_eq!(one.canonical() == other.canonical(), same);
    assert_eq!(pas::same_round(one.as_bytes(), other.as_bytes()), Ok(same));
    same
}

#[test]
fn every_order_of_the_constraints_gives_the_same_bytes() {
    let mut orders = vec![vec![]];
    for term in TERMS {
        let insert = |order: Vec<Written>| {
            (0..=order.len()).map(move |at| {
                let mut longer = order.clone();
                longer.insert(at, term);
                longer
            })
        };
        orders = orders.into_iter().flat_map(insert).collect();
    }
    assert_eq!(orders.len(), 720);
    for order in orders {
        assert_eq!(free(&order).canonical().as_bytes(), expected(), "{order:?}");
    }
}

#[test]
fn a_constraint_is_written_once_however_often_it_is_there() {
    for (at, &again) in TERMS.iter().enumerate() {
        for place in 0..=TERMS.len() {
            let mut repeated = TERMS.to_vec();
            repeated.insert(place, again);
            assert_eq!(free(&repeated).canonical().as_bytes(), expected(), "{at} again at {place}");
        }
    }
    assert_eq!(free(&TERMS.repeat(170)).canonical().as_bytes(), expected());
    let only = free(&[TERMS[4]; 1024]).canonical();
    assert_eq!(only.all_constraints(), free(&[TERMS[4]]).all_constraints());
    assert_eq!(only.as_bytes().len(), 13 + 4 * (2 + 3 + 1));
}

#[test]
fn without_constraints_only_version_and_tick_are_new() {
    let (plain, form) = (free(&[]), free(&[]).canonical());
    assert_eq!(form.as_bytes().len(), plain.as_bytes().len() + 4);
    assert_eq!((form.version(), form.tick()), (2, 1));
    assert_eq!((form.effects(), form.bids()), (EFFECTS.to_vec(), BIDS.to_vec()));
}

#[test]
fn a_sheet_of_version_2_is_copied_whatever_its_tick() {
    for tick in [1, 2, 5, 10] {
        let ticked = round(&BIDS, &EFFECTS, &TERMS).tick(tick).build().expect("bids in ticks");
        assert_eq!(ticked.canonical(), ticked);
        assert!(compared(&ticked, &ticked));
    }
    let highest = in_ticks(1_000_000_000, &[0, 1_000_000_000], &[1]);
    assert_eq!(highest.canonical(), highest);
}

#[test]
fn the_form_of_a_form_is_the_form() {
    for constraints in [&TERMS[..], &[], &[TERMS[5], TERMS[0], TERMS[5]]] {
        let form = free(constraints).canonical();
        assert_eq!(form.canonical(), form);
        assert_eq!(Sheet::from_bytes(form.as_bytes()), Ok(form.clone()), "it is accepted");
        assert!(compared(&form, &free(constraints)));
    }
}

#[test]
fn the_three_sheets_of_round_h_have_one_form() {
    let kept: [&[u8]; 3] =
        [include_bytes!("../../../sheets/H.pas"), include_bytes!("../../../sheets/H1.pas"), include_bytes!("../../../sheets/H1-mixed.pas")];
    for sheet in kept {
        assert_eq!(pas::canonical(sheet).expect("a good sheet").as_bytes(), kept[1]);
        let page = pas::play(sheet).expect("a good sheet");
        assert_eq!((numbers(&page.bidders()), page.prices()), (vec![4, 2, 0], vec![37, 31, 0]));
    }
    assert_eq!(pas::same_round(kept[0], include_bytes!("../../../sheets/H2.pas")), Ok(false), "its tick is 2");
}

#[test]
fn the_largest_sheets_turned_round() {
    let in_order: Vec<Written> = (1..=64).flat_map(|bidder| (1..=16).map(move |slot| [bidder, slot, 0, 0])).collect();
    let mut turned = in_order.clone();
    turned.reverse();
    let (bids, effects) = ([7; 64], [3; 16]);
    let form = sheet(&bids, &effects, &turned).canonical();
    assert_eq!(form.as_bytes().len(), 4429);
    assert_eq!(form, round(&bids, &effects, &in_order).tick(1).build().expect("constraints in order"));
    assert!(compared(&form, &sheet(&bids, &effects, &in_order)));
}

#[test]
fn the_highest_numbers_of_a_constraint_are_in_order_too() {
    let (bids, effects) = ([7; 64], [3; 16]);
    let in_order: [Written; 8] = [
        [1, 0, 64, 16],
        [1, 16, 0, 0],
        [1, 16, 64, 16],
        [2, 0, 1, 1],
        [63, 16, 64, 16],
        [64, 0, 63, 16],
        [64, 15, 63, 16],
        [64, 16, 1, 16],
    ];
    let mut turned = in_order;
    turned.reverse();
    assert_eq!(sheet(&bids, &effects, &turned).canonical().as_bytes()[13 + 4 * 80..], *in_order.as_flattened());
}

#[test]
fn rounds_are_the_same_in_either_version_in_any_order_and_with_repeats() {
    let ticked = round(&BIDS, &EFFECTS, &TERMS).tick(1).build().expect("a tick of 1");
    let (mut turned, mut twice) = (TERMS, TERMS.to_vec());
    turned.reverse();
    twice.extend(TERMS);
    for other in [free(&TERMS), free(&turned), free(&twice), ticked.clone()] {
        assert!(compared(&ticked, &other));
        assert!(compared(&free(&turned), &other));
    }
}

#[test]
fn rounds_that_differ_in_one_thing_are_not_the_same() {
    let one = free(&TERMS);
    let differ = |bids: &[u32], effects: &[u32], constraints: &[Written]| {
        let other = round(bids, effects, constraints);
        assert!(!compared(&one, &other.clone().build().expect("a good sheet")), "{other:?}");
        assert!(!compared(&one, &other.clone().tick(1).build().expect("a good sheet")), "{other:?}");
    };
    differ(&[51, 40, 30], &EFFECTS, &TERMS);
    differ(&[50, 39, 30], &EFFECTS, &TERMS);
    differ(&[50, 40, 30 + 256], &EFFECTS, &TERMS);
    differ(&[40, 50, 30], &EFFECTS, &TERMS);
    differ(&[50, 40, 30, 0], &EFFECTS, &TERMS);
    differ(&BIDS, &[10, 4], &TERMS);
    differ(&BIDS, &[9, 5], &TERMS);
    differ(&BIDS, &[9, 4, 4], &TERMS);
    for at in 0..TERMS.len() {
        let mut less = TERMS.to_vec();
        less.remove(at);
        differ(&BIDS, &EFFECTS, &less);
        // as many constraints as before, one of them twice
        less.push(less[0]);
        differ(&BIDS, &EFFECTS, &less);
    }
    for more in [[1, 0, 3, 1], [1, 1, 3, 2], [1, 0, 2, 2], [2, 0, 3, 2]] {
        let mut longer = TERMS.to_vec();
        longer.push(more);
        differ(&BIDS, &EFFECTS, &longer);
        // one number of the first constraint is another
        longer.remove(0);
        differ(&BIDS, &EFFECTS, &longer);
    }
}

#[test]
fn another_tick_is_another_round() {
    let ticked = |tick| round(&BIDS, &EFFECTS, &TERMS).tick(tick).build().expect("bids in ticks");
    assert!(compared(&free(&TERMS), &ticked(1)));
    assert!(!compared(&free(&TERMS), &ticked(2)));
    assert!(!compared(&ticked(2), &ticked(10)));
    assert!(compared(&ticked(5), &ticked(5)));
}

#[test]
fn a_constraint_that_can_never_be_broken_counts() {
    // Two bidders are never at one slot: the pages are the same, and the rounds are not.
    let (with, without) = (free(&[[1, 2, 3, 2]]), free(&[]));
    assert_eq!(with.play(), without.play());
    assert!(!compared(&with, &without));
}

/// A call by its number, with what it leaves in a buffer of sevens and in the length.
fn call(sheet: &[u8], room: usize) -> (u32, Vec<u8>, usize) {
    let (mut result, mut length) = (vec![7; room], 77);
    let number = raw::canonical(sheet, &mut result, &mut length);
    (number, result, length)
}

#[test]
fn a_buffer_has_room_from_the_bytes_to_be_written_on() {
    let mut repeated = TERMS.to_vec();
    repeated.extend(TERMS);
    let ticked = round(&BIDS, &EFFECTS, &TERMS).tick(1).build().expect("a tick of 1");
    // Of the second what is written is shorter than the sheet.
    for sheet in [free(&TERMS), free(&repeated), ticked] {
        let (bytes, form) = (sheet.as_bytes(), expected());
        assert_eq!(call(bytes, form.len()), (0, form.clone(), form.len()), "exact room");
        for room in [0, 1, 12, 13, form.len() / 2, form.len() - 4, form.len() - 1] {
            assert_eq!(call(bytes, room), (19, vec![7; room], 77), "room for {room}");
        }
        for more in [1, 4, 100, 5000] {
            let (number, result, length) = call(bytes, form.len() + more);
            assert_eq!((number, length), (0, form.len()));
            assert_eq!(result[..length], form);
            assert!(result[length..].iter().all(|&byte| byte == 7), "later bytes stay");
        }
    }
}

#[test]
fn four_bytes_more_than_the_sheet_always_do() {
    for constraints in [&TERMS[..], &TERMS[..1], &[], &[TERMS[0]; 9]] {
        let sheet = free(constraints);
        let mut result = vec![0; sheet.as_bytes().len() + 4];
        let length = sheet.canonical_into(&mut result).expect("room enough");
        assert_eq!(result[..length], *sheet.canonical().as_bytes());
    }
    let plain = free(&[]);
    let (mut exact, mut short) = (vec![0; plain.as_bytes().len() + 4], vec![0; plain.as_bytes().len() + 3]);
    assert_eq!(plain.canonical_into(&mut exact), Ok(exact.len()));
    assert_eq!(plain.canonical_into(&mut short), Err(Refusal::ResultTooShort));
    assert_eq!(pas::canonical_into(plain.as_bytes(), &mut []), Err(Refusal::ResultTooShort));
}

#[test]
fn a_refused_sheet_gives_its_own_number_and_leaves_all() {
    let good = free(&TERMS).as_bytes().to_vec();
    let with = |at: usize, byte: u8| {
        let mut bytes = good.clone();
        bytes[at] = byte;
        bytes
    };
    let terms = 9 + 4 * (2 + 3);
    let ticked = |tick| round(&BIDS, &EFFECTS, &TERMS).tick(tick).bytes();
    let mut repeated = ticked(1);
    repeated.copy_within(4 + terms..4 + terms + 4, 4 + terms + 4);
    let refused = [
        (1, Vec::new()),
        (1, good[..8].to_vec()),
        (1, ticked(1)[..12].to_vec()),
        (2, with(2, b'T')),
        (3, with(3, 3)),
        (4, with(5, 0)),
        (5, with(6, 17)),
        (6, with(8, 5)),
        (26, ticked(0)),
        (7, good[..good.len() - 1].to_vec()),
        (8, with(9, 3)),
        (9, with(9 + 4 * 2 + 3, 255)),
        (27, ticked(3)),
        (10, with(terms, 4)),
        (11, with(terms + 2, 1)),
        (12, with(terms + 3, 0)),
        (13, with(terms + 5, 0)),
        (28, repeated),
    ];
    for (number, sheet) in refused {
        for room in [0, 5, good.len() + 4, 4429] {
            assert_eq!(call(&sheet, room), (number, vec![7; room], 77), "{sheet:?}");
        }
        let refusal = Refusal::from_number(number).expect("a refusal has this number");
        assert_eq!(pas::canonical(&sheet), Err(refusal));
        assert_eq!(pas::same_round(&sheet, &good), Err(refusal));
        assert_eq!(pas::same_round(&good, &sheet), Err(refusal));
        assert_eq!(pas::same_round(&sheet, b"PAS"), Err(refusal), "the first sheet's number comes first");
    }
}

#[test]
fn both_play_to_the_same_page_with_floors_too() {
    let repeated = [TERMS[5], TERMS[2], TERMS[0], TERMS[2], TERMS[4], TERMS[1], TERMS[3], TERMS[5]];
    let sheet = free(&repeated);
    let form = sheet.canonical();
    // Bidder 1 will not have 3 in the second slot, so that 2 has it for nothing.
    assert_eq!((numbers(&sheet.play().bidders()), sheet.play().prices()), (vec![1, 2], vec![40, 0]));
    assert_eq!(form.play(), sheet.play());
    assert_eq!(form.best_page(), sheet.best_page());
    for bidder in (1..=3).map(Bidder) {
        assert_eq!(form.is_downward(bidder), sheet.is_downward(bidder));
        assert_eq!(form.gain(&sheet, bidder, 60), sheet.gain(&form, bidder, 60));
        assert_eq!(form.gain(&form, bidder, 60), sheet.gain(&sheet, bidder, 60));
    }
    for floors in [[0, 0], [45, 0], [31, 41], [51, 30], [60, 60]] {
        assert_eq!(form.play_floors(&floors), sheet.play_floors(&floors), "{floors:?}");
        assert_eq!(form.best_page_floors(&floors), sheet.best_page_floors(&floors), "{floors:?}");
        for bidder in (1..=3).map(Bidder) {
            let gains = |played: &Sheet, truth: &Sheet| played.gain_floors(&floors, truth, bidder, 60);
            assert_eq!(gains(&form, &sheet), gains(&sheet, &form), "{floors:?}");
            assert_eq!(gains(&form, &form), gains(&sheet, &sheet), "{floors:?}");
        }
    }
}

#[test]
fn a_form_has_the_parts_that_a_sheet_of_version_1_has_not() {
    let sheet = free(&[TERMS[4], TERMS[2], TERMS[0], TERMS[2]]);
    assert_eq!(sheet.owner_part(Bidder(1)), Err(Refusal::UnorderedVersion));
    let form = sheet.canonical();
    let part = form.owner_part(Bidder(1)).expect("a bidder of the sheet");
    assert_eq!(part.as_bytes(), [TERMS[0], TERMS[2]].as_flattened());
}

#[test]
fn a_builder_with_a_tick_of_1_builds_the_form_of_one_without() {
    let (own, other) = (Kind::OwnSlot(Slot(1)), Kind::OtherSlot { other: Bidder(1), slot: Slot(2) });
    let terms = SheetBuilder::new().effects(EFFECTS).bids(BIDS);
    let terms = terms.constraint(Bidder(3), own).constraint(Bidder(2), other).constraint(Bidder(3), own);
    let form = terms.clone().build().expect("a good sheet").canonical();
    assert_eq!(terms.tick(1).build(), Ok(form));
}
