//! The builder writes the format of document 01 and leaves every judgement to the library; refusals keep their numbers.

use pas::{Bidder, Constraint, Kind, Refusal, Sheet, SheetBuilder, Slot};

/// Sheet F as document 01 prints it.
const SHEET_F: [u8; 21] = [0x50, 0x41, 0x53, 1, 0, 2, 1, 0, 0, 1, 0, 0, 0, 5, 0, 0, 0, 6, 0, 0, 0];

#[test]
fn the_builder_writes_sheet_f_as_the_document_prints_it() {
    let sheet = SheetBuilder::new().effects([1]).bids([5, 6]).build().expect("sheet F is good");
    assert_eq!(sheet.as_bytes(), SHEET_F);
    assert_eq!((sheet.bidders(), sheet.slots(), sheet.constraints()), (2, 1, 0));
    assert_eq!(Sheet::from_bytes(&SHEET_F), Ok(sheet));
}

#[test]
fn a_tick_stands_after_the_counts_of_version_2() {
    let with_tick = [0x50, 0x41, 0x53, 2, 0, 2, 1, 0, 0, 3, 0, 0, 0, 1, 0, 0, 0, 3, 0, 0, 0, 6, 0, 0, 0];
    let sheet = SheetBuilder::new().effects([1]).bids([3, 6]).tick(3).build().expect("bids of one tick and two");
    assert_eq!(sheet.as_bytes(), with_tick);
    assert_eq!(Sheet::from_bytes(&with_tick), Ok(sheet));
}

#[test]
fn a_tick_of_0_is_written_and_refused() {
    assert_eq!(SheetBuilder::new().effects([1]).bids([0]).tick(0).build(), Err(Refusal::WrongTick));
}

#[test]
fn each_kind_of_constraint_is_written_in_four_bytes() {
    let kinds = [
        Kind::OwnSlot(Slot(3)),
        Kind::OtherSlot { other: Bidder(2), slot: Slot(1) },
        Kind::Pair { own: Slot(2), other: Bidder(4), slot: Slot(5) },
    ];
    let owned = kinds.map(|kind| Constraint { owner: Bidder(1), kind });
    let bytes = SheetBuilder::new().constraints(owned).bytes();
    assert_eq!(bytes[9..], [1, 3, 0, 0, 1, 0, 2, 1, 1, 2, 4, 5]);
}

/// Six constraints of two owners, one of them three times, another in two forms of the same bytes.
fn with_repeats() -> SheetBuilder {
    let own = |owner, slot| Constraint { owner: Bidder(owner), kind: Kind::OwnSlot(Slot(slot)) };
    let on_other = Constraint { owner: Bidder(1), kind: Kind::OtherSlot { other: Bidder(2), slot: Slot(2) } };
    let same_bytes = Constraint { owner: Bidder(1), kind: Kind::Pair { own: Slot(0), other: Bidder(2), slot: Slot(2) } };
    let given = [own(2, 1), on_other, own(2, 1), own(1, 2), same_bytes, own(2, 1)];
    SheetBuilder::new().effects([1, 1]).bids([4, 4]).constraints(given)
}

#[test]
fn in_version_2_constraints_are_written_in_order_and_once() {
    let sheet = with_repeats().tick(4).build().expect("a set in order");
    assert_eq!(sheet.as_bytes()[29..], [1, 0, 2, 2, 1, 2, 0, 0, 2, 1, 0, 0]);
    assert_eq!(sheet.constraints(), 3);
}

#[test]
fn in_version_1_constraints_are_written_as_they_came() {
    let sheet = with_repeats().build().expect("any order");
    assert_eq!(sheet.as_bytes()[25..], [2, 1, 0, 0, 1, 0, 2, 2, 2, 1, 0, 0, 1, 2, 0, 0, 1, 0, 2, 2, 2, 1, 0, 0]);
    assert_eq!(sheet.constraints(), 6);
}

#[test]
fn in_version_2_a_repeat_does_not_count_against_the_limit() {
    let repeats = |owner, times| vec![Constraint { owner: Bidder(owner), kind: Kind::OwnSlot(Slot(1)) }; times];
    let sheet = SheetBuilder::new().tick(1).effects([1]).bids([1, 1]).constraints(repeats(2, 1024)).constraints(repeats(1, 70_000));
    assert_eq!(sheet.build().expect("two constraints").constraints(), 2);
}

#[test]
fn an_empty_builder_is_refused_for_its_bidders() {
    assert_eq!(SheetBuilder::new().build(), Err(Refusal::WrongBidders));
    assert_eq!(SheetBuilder::new().bids([1]).build(), Err(Refusal::WrongSlots));
}

#[test]
fn counts_beyond_their_fields_are_refused_and_not_cut() {
    let effect = || SheetBuilder::new().effects([1]);
    // 257 and 65,537 would be 1 in the field if they were cut.
    for bidders in [65, 255, 256, 257, 320] {
        assert_eq!(effect().bids(vec![1; bidders]).build(), Err(Refusal::WrongBidders), "{bidders} bidders");
    }
    for slots in [17, 255, 256, 257, 272] {
        assert_eq!(SheetBuilder::new().bids([1]).effects(vec![1; slots]).build(), Err(Refusal::WrongSlots), "{slots} slots");
    }
    for constraints in [1025, 65_535, 65_536, 65_537, 66_560] {
        let many = vec![Constraint { owner: Bidder(1), kind: Kind::OwnSlot(Slot(1)) }; constraints];
        let sheet = effect().bids([1]).constraints(many);
        assert_eq!(sheet.build(), Err(Refusal::TooManyConstraints), "{constraints} constraints");
    }
}

#[test]
fn the_first_count_that_is_wrong_gives_the_number() {
    let many = vec![Constraint { owner: Bidder(1), kind: Kind::OwnSlot(Slot(1)) }; 70_000];
    assert_eq!(SheetBuilder::new().effects(vec![1; 300]).constraints(many.clone()).build(), Err(Refusal::WrongBidders));
    assert_eq!(SheetBuilder::new().bids([1]).constraints(many).build(), Err(Refusal::WrongSlots));
}

#[test]
fn every_refusal_has_its_number_and_its_sentence() {
    let all: Vec<Refusal> = (0..=300).filter_map(Refusal::from_number).collect();
    assert_eq!(all.iter().map(|refusal| refusal.number()).collect::<Vec<_>>(), (1..=31).collect::<Vec<_>>());
    assert_eq!(Refusal::from_number(u32::MAX), None);
    assert_eq!(all[0].to_string(), "The sheet has fewer than 9 bytes, or fewer than 13 in version 2.");
    assert_eq!(all[12].to_string(), "Own place, other bidder and other's place are all 0.");
    assert_eq!(all[18].to_string(), "The result buffer is shorter than the bytes to be written.");
    assert_eq!(all[21].to_string(), "The bar against the owner is not 0.");
    assert_eq!(all[24].to_string(), "The rivals give more than 1,024 conditions.");
    assert_eq!(all[26].to_string(), "A bid is no multiple of the tick.");
    assert_eq!(all[28].to_string(), "A bidder's part is asked of a sheet of version 1.");
    assert_eq!(all[30].to_string(), "A floor is above 1,000,000,000.");
}

#[test]
fn a_page_tells_where_a_bidder_stands() {
    let page = Sheet::from_bytes(&SHEET_F).expect("sheet F is good").play();
    assert_eq!((page.slot_of(Bidder(2)), page.slot_of(Bidder(1))), (Some(Slot(1)), None));
}
