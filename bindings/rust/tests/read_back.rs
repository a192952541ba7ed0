//! An accepted sheet can be read back, and a builder that is given what was read builds the same bytes.
//! In version 2 the constraints come back in order.

use independent::random::{in_ticks, round, tick, Manner, Random, Size};
use independent::slow;
use pas::{Bidder, Constraint, Kind, Sheet, SheetBuilder, Slot};

const LARGEST: Size = Size { bidders: 64, slots: 16, constraints: 1024 };

fn built_from(sheet: &Sheet) -> SheetBuilder {
    let read = SheetBuilder::new().effects(sheet.effects()).bids(sheet.bids()).constraints(sheet.all_constraints());
    match sheet.version() {
        1 => read,
        _ => read.tick(sheet.tick()),
    }
}

fn constraint(owner: u8, kind: Kind) -> Constraint {
    Constraint { owner: Bidder(owner), kind }
}

/// One constraint of each kind, of two owners in turn.
fn one_of_each_kind() -> [Constraint; 3] {
    [
        constraint(2, Kind::OtherSlot { other: Bidder(3), slot: Slot(1) }),
        constraint(1, Kind::Pair { own: Slot(2), other: Bidder(3), slot: Slot(1) }),
        constraint(2, Kind::OwnSlot(Slot(2))),
    ]
}

fn small_round() -> SheetBuilder {
    SheetBuilder::new().effects([1_000_000, 258]).bids([1_000_000_000, 0, 66_052]).constraints(one_of_each_kind())
}

fn small_sheet() -> Sheet {
    small_round().build().expect("a good sheet")
}

#[test]
fn what_was_built_is_read_back() {
    let with_tick = small_round().tick(4).build().expect("multiples of 4");
    let [first, second, third] = one_of_each_kind();
    let (as_they_came, in_order) = ([first, second, third], [second, first, third]);
    for (sheet, version, tick, constraints) in [(small_sheet(), 1, 1, as_they_came), (with_tick, 2, 4, in_order)] {
        assert_eq!((sheet.version(), sheet.tick()), (version, tick));
        assert_eq!((sheet.bidders(), sheet.slots(), sheet.constraints()), (3, 2, 3));
        assert_eq!(sheet.effects(), [1_000_000, 258]);
        assert_eq!(sheet.bids(), [1_000_000_000, 0, 66_052]);
        assert_eq!(sheet.all_constraints(), constraints);
    }
}

#[test]
fn a_bidders_list_has_the_constraints_that_it_owns_in_sheet_order() {
    let (sheet, [first, second, third]) = (small_sheet(), one_of_each_kind());
    assert_eq!(sheet.list_of(Bidder(2)), [first, third]);
    assert_eq!(sheet.list_of(Bidder(1)), [second]);
    assert_eq!(sheet.list_of(Bidder(3)), [], "only others' constraints name it");
    assert_eq!(sheet.list_of(Bidder(4)), [], "it is not in the sheet");
}

#[test]
fn a_sheet_without_constraints_has_none_to_read() {
    let sheet = SheetBuilder::new().effects([7]).bids([5]).build().expect("a good sheet");
    assert_eq!((sheet.effects(), sheet.bids(), sheet.all_constraints()), (vec![7], vec![5], vec![]));
}

#[test]
fn a_pair_with_own_slot_0_comes_back_as_a_constraint_on_the_other() {
    let written = Kind::Pair { own: Slot(0), other: Bidder(2), slot: Slot(1) };
    let sheet = SheetBuilder::new().effects([1]).bids([1, 1]).constraint(Bidder(1), written).build().expect("a good sheet");
    let read = constraint(1, Kind::OtherSlot { other: Bidder(2), slot: Slot(1) });
    assert_eq!(sheet.all_constraints(), [read]);
    assert_eq!(built_from(&sheet).bytes(), sheet.as_bytes());
}

#[test]
fn a_builder_that_is_given_what_was_read_builds_the_same_bytes() {
    let mut random = Random::seeded(11);
    for number in 0..2_000 {
        let some = Size { bidders: random.between(1, 64), slots: random.between(1, 16), constraints: random.between(0, 1024) };
        let size = if number % 20 == 0 { LARGEST } else { some };
        let (tick, round) = (tick(&mut random), round(&mut random, size, Manner::Mixed, 1_000_000_000, 1_000_000));
        let round = in_ticks(round, tick);
        let sheet = Sheet::from_bytes(&slow::sheet(&round)).expect("a good sheet");
        assert_eq!((sheet.version() == 2).then_some(sheet.tick()), tick);
        assert_eq!((sheet.effects(), sheet.bids()), (round.effects, round.bids));
        assert_eq!(built_from(&sheet).bytes(), sheet.as_bytes());
    }
}
