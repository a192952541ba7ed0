//! Version 2 in owner order: which sheets are refused with 28, and which part of a sheet one bidder's constraints are.

use independent::random::{in_ticks, round, Manner, Random, Size};
use independent::slow;
use pas::{Bidder, Constraint, Kind, OwnerPart, Refusal, Sheet, SheetBuilder, Slot};

/// A constraint as the documents write it: owner, own place, other, other's place.
type Written = [u8; 4];

/// The bytes of a sheet of five bidders, three slots and these constraints, as they stand; of version 2 with tick 1, or of version 1.
fn bytes(version: u8, constraints: &[Written]) -> Vec<u8> {
    let mut bytes = SheetBuilder::new().bids([5, 4, 3, 2, 1]).effects([3, 2, 1]).bytes();
    bytes[3] = version;
    bytes[7..9].copy_from_slice(&(constraints.len() as u16).to_le_bytes());
    if version == 2 {
        bytes.splice(9..9, [1, 0, 0, 0]);
    }
    bytes.extend(constraints.iter().flatten());
    bytes
}

/// Bytes before the constraints of such a sheet of version 2: the header, the tick, three effects and five bids.
const BEFORE: usize = 13 + 4 * (3 + 5);

/// Terms of bidders 2 and 4.
const TERMS: [Written; 5] = [[2, 0, 3, 1], [2, 1, 0, 0], [2, 3, 5, 2], [4, 2, 0, 0], [4, 2, 1, 3]];

/// The part of a bidder stands where it is said to, in the sheet's own memory, and has these constraints.
#[track_caller]
fn stands(sheet: &Sheet, bidder: u8, start: usize, constraints: &[Written]) {
    let part = sheet.owner_part(Bidder(bidder)).expect("a bidder of a sheet of version 2");
    assert_eq!((part.start(), part.as_bytes()), (start, constraints.as_flattened()));
    assert_eq!(part.as_bytes().as_ptr(), sheet.as_bytes()[start..].as_ptr(), "it is the sheet's own memory");
    assert_eq!(part.constraints().len(), constraints.len());
    assert_eq!(part.constraints().collect::<Vec<_>>(), sheet.list_of(Bidder(bidder)));
    assert_eq!(pas::owner_part(sheet.as_bytes(), Bidder(bidder)), Ok(part));
}

fn sheet(constraints: &[Written]) -> Sheet {
    Sheet::from_bytes(&bytes(2, constraints)).expect("constraints in order")
}

fn refused(constraints: &[Written]) -> Option<u32> {
    pas::check(&bytes(2, constraints)).err().map(Refusal::number)
}

#[test]
fn the_first_owners_part_starts_where_the_constraints_do() {
    stands(&sheet(&TERMS), 2, BEFORE, &TERMS[..3]);
}

#[test]
fn the_last_owners_part_goes_to_the_sheets_end() {
    let sheet = sheet(&TERMS);
    stands(&sheet, 4, BEFORE + 12, &TERMS[3..]);
    assert_eq!(BEFORE + 12 + 8, sheet.as_bytes().len());
}

#[test]
fn an_empty_part_stands_just_before_the_first_higher_owners() {
    let sheet = sheet(&TERMS);
    stands(&sheet, 1, BEFORE, &[]);
    stands(&sheet, 3, BEFORE + 12, &[]);
}

#[test]
fn an_empty_part_above_every_owner_stands_at_the_sheets_end() {
    let sheet = sheet(&TERMS);
    stands(&sheet, 5, sheet.as_bytes().len(), &[]);
}

#[test]
fn without_constraints_every_part_is_empty_at_the_sheets_end() {
    for bidder in 1..=5 {
        stands(&sheet(&[]), bidder, BEFORE, &[]);
    }
}

#[test]
fn one_owner_may_have_all_constraints() {
    let owned = TERMS.map(|[_, own, other, slot]| [1, own, other, slot]);
    let owned = [owned[0], owned[1], owned[2]];
    stands(&sheet(&owned), 1, BEFORE, &owned);
    stands(&sheet(&owned), 2, BEFORE + 12, &[]);
}

#[test]
fn of_the_largest_sheet_every_bidder_has_its_sixteen() {
    let own = |bidder: u8| (1..=16).map(move |slot| Constraint { owner: Bidder(bidder), kind: Kind::OwnSlot(Slot(slot)) });
    // From the last bidder to the first: the builder puts them in order.
    let given = (1..=64).rev().flat_map(own);
    let sheet = SheetBuilder::new().tick(1).bids([0; 64]).effects([1; 16]).constraints(given).build().expect("the largest sheet");
    for bidder in 1..=64 {
        let written: Vec<Written> = (1..=16).map(|slot| [bidder, slot, 0, 0]).collect();
        stands(&sheet, bidder, 13 + 4 * 80 + 64 * (usize::from(bidder) - 1), &written);
    }
}

#[test]
fn a_part_lives_as_long_as_the_bytes_that_it_is_of() {
    let bytes = bytes(2, &TERMS);
    let part: OwnerPart<'_> = {
        let bidder = Bidder(4);
        pas::owner_part(&bytes, bidder).expect("a good sheet")
    };
    let kinds: Vec<Kind> = part.constraints().rev().map(|constraint| constraint.kind).collect();
    let pair = Kind::Pair { own: Slot(2), other: Bidder(1), slot: Slot(3) };
    assert_eq!(kinds, [pair, Kind::OwnSlot(Slot(2))]);
    assert_eq!(part.as_ref(), &bytes[BEFORE + 12..]);
}

/// A refused call by its number; neither number that was lent has changed.
#[track_caller]
fn turned_away(sheet: &[u8], bidder: u32, number: u32) {
    let (mut start, mut length) = (77, 78);
    assert_eq!(pas::raw::owner_part(sheet, bidder, &mut start, &mut length), number);
    assert_eq!((start, length), (77, 78), "a refused call altered something lent");
}

#[test]
fn a_sheet_of_version_1_has_no_parts_whatever_the_bidder_and_the_order() {
    for constraints in [&TERMS[..], &[], &[TERMS[1], TERMS[0]], &[TERMS[0]; 3]] {
        let sheet = bytes(1, constraints);
        assert_eq!(pas::check(&sheet), Ok(()), "version 1 stays free");
        for bidder in [0, 1, 2, 5, 6, 258, u32::MAX] {
            turned_away(&sheet, bidder, 29);
        }
        let sheet = Sheet::from_bytes(&sheet).expect("a good sheet");
        assert_eq!(sheet.owner_part(Bidder(2)), Err(Refusal::UnorderedVersion));
        assert_eq!(sheet.owner_part(Bidder(0)), Err(Refusal::UnorderedVersion), "29 comes before 16");
    }
}

#[test]
fn a_sheet_that_is_refused_gives_its_own_number_before_29_and_16() {
    for bidder in [0, 2, 6] {
        turned_away(b"PAS", bidder, 1);
        turned_away(&bytes(3, &TERMS), bidder, 3);
        turned_away(&bytes(1, &[[2, 1, 2, 1]]), bidder, 11);
        turned_away(&bytes(2, &[[2, 1, 2, 1]]), bidder, 11);
        turned_away(&bytes(2, &[TERMS[1], TERMS[0]]), bidder, 28);
    }
}

#[test]
fn the_bidder_must_be_in_the_sheet() {
    let sheet = sheet(&TERMS);
    for bidder in [0, 6, 64, 255, 256, 258, 1 << 31, u32::MAX] {
        turned_away(sheet.as_bytes(), bidder, 16);
    }
    assert_eq!(sheet.owner_part(Bidder(0)), Err(Refusal::WrongBidder));
    assert_eq!(sheet.owner_part(Bidder(6)), Err(Refusal::WrongBidder));
}

#[test]
fn equal_neighbours_are_out_of_order() {
    assert_eq!(refused(&[TERMS[0], TERMS[0]]), Some(28));
    assert_eq!(refused(&[TERMS[0], TERMS[1], TERMS[1], TERMS[2]]), Some(28));
    assert_eq!(refused(&[TERMS[3], TERMS[4], TERMS[4]]), Some(28));
}

#[test]
fn the_first_field_that_differs_decides() {
    let in_order = [
        [[1, 3, 5, 3], [2, 0, 1, 1]],
        [[2, 1, 5, 3], [2, 2, 0, 0]],
        [[2, 1, 3, 3], [2, 1, 4, 1]],
        [[2, 1, 3, 1], [2, 1, 3, 2]],
        [[2, 1, 0, 0], [2, 1, 1, 1]],
        [[2, 0, 5, 3], [2, 1, 0, 0]],
    ];
    for [below, above] in in_order {
        assert_eq!(refused(&[below, above]), None, "{below:?}, {above:?}");
        assert_eq!(refused(&[above, below]), Some(28), "{above:?}, {below:?}");
    }
}

#[test]
fn only_the_one_before_is_looked_at_and_that_is_enough() {
    assert_eq!(refused(&TERMS), None);
    for at in 0..4 {
        let mut swapped = TERMS;
        swapped.swap(at, at + 1);
        assert_eq!(refused(&swapped), Some(28), "{at}");
    }
    // The last is above the first and the second, and not above the third.
    assert_eq!(refused(&[TERMS[0], TERMS[1], TERMS[3], TERMS[2]]), Some(28));
}

#[test]
fn a_constraint_is_held_to_10_to_13_before_its_place_in_the_order() {
    assert_eq!(refused(&[TERMS[3], [6, 1, 0, 0]]), Some(10));
    assert_eq!(refused(&[TERMS[3], [2, 1, 2, 1]]), Some(11), "out of order, and its other is its owner");
    assert_eq!(refused(&[TERMS[3], [2, 1, 3, 0]]), Some(12));
    assert_eq!(refused(&[TERMS[3], [2, 0, 0, 0]]), Some(13));
    assert_eq!(refused(&[TERMS[3], [0, 1, 0, 0]]), Some(10));
}

#[test]
fn constraints_are_taken_in_sheet_order_each_through_all_its_rules() {
    assert_eq!(refused(&[TERMS[3], TERMS[0], [2, 1, 2, 1]]), Some(28), "one out of order before a bad one");
    assert_eq!(refused(&[[2, 1, 2, 1], TERMS[3], TERMS[0]]), Some(11), "a bad one before one out of order");
    assert_eq!(refused(&[[0, 0, 0, 0], [0, 0, 0, 0]]), Some(10));
}

#[test]
fn every_call_is_refused_with_28_and_a_truth_sheet_with_14() {
    let (good, bad) = (bytes(2, &TERMS), bytes(2, &[TERMS[1], TERMS[0]]));
    assert_eq!(pas::play(&bad), Err(Refusal::OutOfOrder));
    assert_eq!(pas::is_downward(&bad, Bidder(9)), Err(Refusal::OutOfOrder));
    assert_eq!(pas::gain(&bad, &bad, Bidder(9), 0), Err(Refusal::OutOfOrder));
    assert_eq!(pas::gain(&good, &bad, Bidder(9), 0), Err(Refusal::TruthRefused));
    assert_eq!(pas::best_page(&bad), Err(Refusal::OutOfOrder));
    assert_eq!(pas::owner_part(&bad, Bidder(9)), Err(Refusal::OutOfOrder));
    assert_eq!(pas::play_into(&bad, &mut []), Err(Refusal::OutOfOrder), "before 19");
}

#[test]
fn the_parts_of_all_bidders_one_after_another_are_the_sheets_constraints() {
    let mut random = Random::seeded(21);
    for _ in 0..300 {
        let size = Size { bidders: random.between(1, 64), slots: random.between(1, 16), constraints: random.between(0, 1024) };
        let drawn = round(&mut random, size, Manner::Mixed, 1000, 1000);
        let sheet = Sheet::from_bytes(&slow::sheet(&in_ticks(drawn, Some(1)))).expect("constraints in order");
        let mut at = sheet.as_bytes().len() - 4 * sheet.constraints();
        for bidder in 1..=size.bidders as u8 {
            let part = sheet.owner_part(Bidder(bidder)).expect("a bidder of the sheet");
            assert_eq!(part.start(), at);
            assert!(part.constraints().all(|constraint| constraint.owner == Bidder(bidder)));
            at += part.as_bytes().len();
        }
        assert_eq!(at, sheet.as_bytes().len());
    }
}
