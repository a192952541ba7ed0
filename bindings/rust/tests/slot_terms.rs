//! Top-of-page terms: which constraints are written from a limit and bars, each refusal and their order, what stays as it was, and terms in a builder.

mod terms;
mod written;

use pas::{raw, Bidder, Constraint, Kind, Refusal, Sheet, SheetBuilder, Slot};
use terms::{constraint, WritesTerms};
use written::{in_ticks, numbers, round, sheet, Written};

/// A call with plain numbers.
#[derive(Clone, Debug)]
struct Call {
    n: u32,
    m: u32,
    owner: u32,
    limit: u32,
    bars: Vec<u8>,
}

fn call(n: u32, m: u32, owner: u32, limit: u32, bars: &[u8]) -> Call {
    Call { n, m, owner, limit, bars: bars.to_vec() }
}

impl WritesTerms for Call {
    fn lent(&self, room: usize) -> (u32, Vec<u8>, u32) {
        let (mut result, mut count) = (vec![7; room], 77);
        let number = raw::slot_terms(self.n, self.m, self.owner, self.limit, &self.bars, &mut result, &mut count);
        (number, result, count)
    }
}

#[test]
fn a_limit_and_bars_give_the_worked_list() {
    let worked = [[2, 0, 1, 1], [2, 0, 3, 1], [2, 0, 3, 2], [2, 0, 3, 3], [2, 3, 0, 0]];
    call(3, 3, 2, 2, &[1, 0, 3]).gives(&worked);
    assert_eq!(pas::slot_terms(3, 3, Bidder(2), Slot(2), &[1, 0, 3]), Ok(worked.map(constraint).to_vec()));
}

#[test]
fn a_limit_bars_the_owner_from_the_slots_below_it() {
    call(3, 4, 1, 1, &[0; 3]).gives(&[[1, 2, 0, 0], [1, 3, 0, 0], [1, 4, 0, 0]]);
    call(3, 4, 1, 2, &[0; 3]).gives(&[[1, 3, 0, 0], [1, 4, 0, 0]]);
    call(3, 4, 3, 3, &[0; 3]).gives(&[[3, 4, 0, 0]]);
    call(3, 4, 3, 4, &[0; 3]).gives(&[]);
}

#[test]
fn a_bar_bars_a_rival_from_the_slots_down_to_it() {
    call(3, 4, 1, 4, &[0, 1, 0]).gives(&[[1, 0, 2, 1]]);
    call(3, 4, 1, 4, &[0, 0, 4]).gives(&[[1, 0, 3, 1], [1, 0, 3, 2], [1, 0, 3, 3], [1, 0, 3, 4]]);
    call(3, 4, 3, 4, &[2, 1, 0]).gives(&[[3, 0, 1, 1], [3, 0, 1, 2], [3, 0, 2, 1]]);
    call(4, 2, 2, 2, &[2, 0, 0, 1]).gives(&[[2, 0, 1, 1], [2, 0, 1, 2], [2, 0, 4, 1]]);
}

#[test]
fn terms_that_ask_for_nothing_write_nothing_and_need_no_room() {
    call(1, 1, 1, 1, &[0]).gives(&[]);
    call(64, 16, 64, 16, &[0; 64]).gives(&[]);
    assert_eq!(call(2, 2, 1, 2, &[0, 0]).lent(0), (0, vec![], 0));
    assert_eq!(pas::slot_terms(2, 2, Bidder(1), Slot(2), &[0, 0]), Ok(vec![]));
}

#[test]
fn one_bidder_has_its_limit_alone() {
    call(1, 16, 1, 15, &[0]).gives(&[[1, 16, 0, 0]]);
    call(1, 3, 1, 1, &[0]).gives(&[[1, 2, 0, 0], [1, 3, 0, 0]]);
    call(1, 1, 1, 1, &[1]).refused(22);
}

#[test]
fn one_slot_has_bars_of_one_alone() {
    call(3, 1, 2, 1, &[1, 0, 1]).gives(&[[2, 0, 1, 1], [2, 0, 3, 1]]);
    call(3, 1, 2, 2, &[1, 0, 1]).refused(20);
    call(3, 1, 2, 1, &[1, 0, 2]).refused(21);
}

/// All bars as high as they may be, but the owner's.
fn highest_bars(n: u8, m: u8, owner: u8) -> Vec<u8> {
    (1..=n).map(|bidder| if bidder == owner { 0 } else { m }).collect()
}

#[test]
fn the_largest_lists_are_of_1023_constraints() {
    for owner in [1, 2, 33, 63, 64] {
        let others = (1..=64).filter(|&other| other != owner);
        let mut expected: Vec<Written> = others.flat_map(|other| (1..=16).map(move |slot| [owner, 0, other, slot])).collect();
        expected.extend((2..=16).map(|own| [owner, own, 0, 0]));
        assert_eq!(expected.len(), 1023);
        let bars = highest_bars(64, 16, owner);
        call(64, 16, u32::from(owner), 1, &bars).gives(&expected);

        let terms = pas::slot_terms(64, 16, Bidder(owner), Slot(1), &bars).expect("good terms");
        assert_eq!(terms, expected.iter().copied().map(constraint).collect::<Vec<_>>());
        let (mut exact, mut short) = ([7; 4092], [7; 4091]);
        assert_eq!(pas::slot_terms_into(64, 16, Bidder(owner), Slot(1), &bars, &mut exact), Ok(1023));
        assert_eq!(exact, *expected.as_flattened());
        assert_eq!(pas::slot_terms_into(64, 16, Bidder(owner), Slot(1), &bars, &mut short), Err(Refusal::ResultTooShort));
        assert_eq!(short, [7; 4091]);
    }
}

#[test]
fn each_number_is_refused_outside_its_range_and_not_cut() {
    // 256 more is the same in the low byte, 65,536 more in the low two.
    let outside = |right: u32, most: u32| [0, most + 1, 255, right + 256, 300, right + 65_536, right + (1 << 31), u32::MAX];
    for n in outside(3, 64) {
        call(n, 3, 2, 2, &[1, 0, 3]).refused(4);
    }
    for m in outside(3, 16) {
        call(3, m, 2, 2, &[1, 0, 3]).refused(5);
    }
    for owner in outside(2, 3) {
        call(3, 3, owner, 2, &[1, 0, 3]).refused(16);
    }
    for limit in outside(2, 3) {
        call(3, 3, 2, limit, &[1, 0, 3]).refused(20);
    }
    for bar in [4, 5, 16, 17, 128, 255] {
        call(3, 3, 2, 2, &[bar, 0, 3]).refused(21);
        call(3, 3, 2, 2, &[1, 0, bar]).refused(21);
        call(3, 3, 2, 2, &[1, bar, 3]).refused(21);
    }
    for bar in [1, 2, 3] {
        call(3, 3, 2, 2, &[1, bar, 3]).refused(22);
    }
}

#[test]
fn the_edges_of_each_range_are_answered() {
    call(64, 16, 64, 16, &[0; 64]).gives(&[]);
    call(64, 1, 1, 1, &[0; 64]).gives(&[]);
    call(64, 16, 64, 15, &[0; 64]).gives(&[[64, 16, 0, 0]]);
    let mut last = [0; 64];
    last[63] = 1;
    call(64, 16, 1, 16, &last).gives(&[[1, 0, 64, 1]]);
    call(65, 16, 1, 16, &[0; 65]).refused(4);
    call(64, 17, 1, 17, &[0; 64]).refused(5);
}

#[test]
fn there_is_a_bar_for_each_bidder() {
    for count in [0, 1, 2, 4, 5, 63, 64, 65, 259, 65_539] {
        call(3, 3, 2, 2, &vec![0; count]).refused(21);
    }
    for count in [0, 63, 65, 128, 320] {
        call(64, 16, 64, 1, &vec![0; count]).refused(21);
    }
    assert_eq!(pas::slot_terms(3, 3, Bidder(2), Slot(2), &[1, 0]), Err(Refusal::WrongBars));
}

#[test]
fn every_bar_is_looked_at() {
    for at in 0..64 {
        let mut bars = [0; 64];
        bars[at] = 17;
        call(64, 16, 5, 16, &bars).refused(21);
        bars[at] = 16;
        match at {
            4 => call(64, 16, 5, 16, &bars).refused(22),
            _ => call(64, 16, 5, 16, &bars).gives(&(1..=16).map(|slot| [5, 0, at as u8 + 1, slot]).collect::<Vec<_>>()),
        }
    }
}

/// A rule's number, and what makes a call break it.
type Fault = (u32, fn(&mut Call));

/// A fault for each rule but that of the buffer, in the order of the rules.
const FAULTS: [Fault; 6] = [
    (4, |call| call.n = 65),
    (5, |call| call.m = 0),
    (16, |call| call.owner = 0),
    (20, |call| call.limit = 0),
    (21, |call| call.bars[0] = 200),
    (22, |call| call.bars[1] = 1),
];

/// The same, each at the other end of its rule.
const OTHER_FAULTS: [Fault; 6] = [
    (4, |call| call.n = 0),
    (5, |call| call.m = 17),
    (16, |call| call.owner = 66),
    (20, |call| call.limit = 18),
    (21, |call| call.bars.push(0)),
    (22, |call| call.bars[1] = 3),
];

#[test]
fn of_two_rules_that_are_broken_the_first_decides() {
    let right = || call(3, 3, 2, 2, &[1, 0, 3]);
    assert_eq!(right().lent(20).0, 0);
    for faults in [FAULTS, OTHER_FAULTS] {
        for (at, (number, spoil)) in faults.into_iter().enumerate() {
            let mut once = right();
            spoil(&mut once);
            once.refused(number);
            for later in [FAULTS, OTHER_FAULTS] {
                for (_, spoil_too) in &later[at + 1..] {
                    let mut twice = right();
                    spoil_too(&mut twice);
                    spoil(&mut twice);
                    twice.refused(number);
                }
            }
        }
    }
    let mut wrong = right();
    for (number, spoil) in FAULTS.into_iter().rev() {
        spoil(&mut wrong);
        wrong.refused(number);
    }
}

#[test]
fn a_bar_against_the_owner_above_m_is_a_wrong_bar_first() {
    call(3, 3, 2, 2, &[1, 4, 3]).refused(21);
    call(3, 3, 2, 2, &[1, 3, 3]).refused(22);
    call(3, 3, 2, 2, &[4, 1, 3]).refused(21);
    call(3, 3, 2, 2, &[1, 1, 4]).refused(21);
    call(3, 3, 2, 2, &[1, 1]).refused(21);
}

#[test]
fn a_short_buffer_comes_last() {
    for (number, spoil) in FAULTS.into_iter().chain(OTHER_FAULTS) {
        let mut wrong = call(3, 3, 2, 2, &[1, 0, 3]);
        spoil(&mut wrong);
        assert_eq!(wrong.lent(0), (number, vec![], 77));
        assert_eq!(wrong.lent(19), (number, vec![7; 19], 77));
    }
    assert_eq!(call(3, 3, 2, 2, &[1, 0, 3]).lent(19), (19, vec![7; 19], 77));
}

#[test]
fn the_wrapper_names_the_refusals_and_cuts_nothing() {
    let terms = |bidders, slots, owner, limit, bars: &[u8]| pas::slot_terms(bidders, slots, Bidder(owner), Slot(limit), bars);
    for bidders in [0, 65, 300, 256 + 3, 65_536 + 3, (1 << 32) + 3, usize::MAX] {
        assert_eq!(terms(bidders, 3, 2, 2, &[1, 0, 3]), Err(Refusal::WrongBidders), "{bidders} bidders");
    }
    for slots in [0, 17, 300, 256 + 3, 65_536 + 3, (1 << 32) + 3, usize::MAX] {
        assert_eq!(terms(3, slots, 2, 2, &[1, 0, 3]), Err(Refusal::WrongSlots), "{slots} slots");
    }
    assert_eq!(terms(3, 3, 0, 2, &[1, 0, 3]), Err(Refusal::WrongBidder));
    assert_eq!(terms(3, 3, 4, 2, &[1, 0, 3]), Err(Refusal::WrongBidder));
    assert_eq!(terms(3, 3, 2, 0, &[1, 0, 3]), Err(Refusal::WrongLimit));
    assert_eq!(terms(3, 3, 2, 4, &[1, 0, 3]), Err(Refusal::WrongLimit));
    assert_eq!(terms(3, 3, 2, 2, &[1, 0, 4]), Err(Refusal::WrongBars));
    assert_eq!(terms(3, 3, 2, 2, &[1, 2, 3]), Err(Refusal::BarAgainstOwner));
    let mut result = [7; 24];
    assert_eq!(pas::slot_terms_into(3, 3, Bidder(2), Slot(2), &[1, 0, 3], &mut result[..19]), Err(Refusal::ResultTooShort));
    assert_eq!(result, [7; 24]);
    assert_eq!(pas::slot_terms_into(3, 3, Bidder(2), Slot(2), &[1, 0, 3], &mut result), Ok(5));
    assert_eq!(result, [2, 0, 1, 1, 2, 0, 3, 1, 2, 0, 3, 2, 2, 0, 3, 3, 2, 3, 0, 0, 7, 7, 7, 7]);
}

const BIDS: [u32; 3] = [30, 20, 10];
const EFFECTS: [u32; 3] = [4, 2, 1];

fn three() -> SheetBuilder {
    round(&BIDS, &EFFECTS, &[])
}

#[test]
fn a_builder_puts_the_terms_on_its_sheet() {
    let terms = three().slot_terms(Bidder(2), Slot(2), [1, 0, 3]);
    let plain = sheet(&BIDS, &EFFECTS, &[[2, 0, 1, 1], [2, 0, 3, 1], [2, 0, 3, 2], [2, 0, 3, 3], [2, 3, 0, 0]]);
    assert_eq!(terms.bytes(), plain.as_bytes());
    assert_eq!(terms.clone().tick(1).build(), Ok(plain.canonical()));
    let sheet = terms.build().expect("good terms");
    assert_eq!(sheet.list_of(Bidder(2)), pas::slot_terms(3, 3, Bidder(2), Slot(2), &[1, 0, 3]).expect("good terms"));
    assert_eq!(sheet.is_downward(Bidder(2)), Ok(true));
    assert_eq!(numbers(&sheet.play().bidders()), [1, 3, 0], "2 will not stand where 1 is at the top");
}

#[test]
fn a_builder_uses_the_bidders_and_slots_that_the_sheet_has_in_the_end() {
    let first = SheetBuilder::new().slot_terms(Bidder(2), Slot(2), [1, 0, 3]).effects(EFFECTS).bids(BIDS);
    let between = SheetBuilder::new().effects([4, 2]).bids([30]).slot_terms(Bidder(2), Slot(2), [1, 0, 3]).effects([1]).bids([20, 10]);
    let last = three().slot_terms(Bidder(2), Slot(2), [1, 0, 3]).build();
    assert_eq!(last.as_ref().map(Sheet::constraints), Ok(5));
    assert_eq!(first.build(), last);
    assert_eq!(between.build(), last);
}

#[test]
fn terms_stand_among_the_other_constraints_as_they_came_in_version_1_and_in_order_in_version_2() {
    let own = |slot| Kind::OwnSlot(Slot(slot));
    let mixed = three().constraint(Bidder(3), own(1)).slot_terms(Bidder(1), Slot(2), [0, 1, 0]).constraint(Bidder(1), own(3));
    let written = |sheet: &Sheet| sheet.all_constraints();
    let as_they_came = [[3, 1, 0, 0], [1, 0, 2, 1], [1, 3, 0, 0], [1, 3, 0, 0]].map(constraint);
    assert_eq!(written(&mixed.clone().build().expect("a good sheet")), as_they_came);
    let in_order = [[1, 0, 2, 1], [1, 3, 0, 0], [3, 1, 0, 0]].map(constraint);
    assert_eq!(written(&mixed.tick(1).build().expect("a good sheet")), in_order);
}

#[test]
fn terms_that_ask_for_nothing_leave_the_sheet_as_it_is() {
    assert_eq!(three().tick(10).slot_terms(Bidder(1), Slot(3), [0; 3]).build(), Ok(in_ticks(10, &BIDS, &EFFECTS)));
}

#[test]
fn terms_of_several_bidders_and_two_of_one_add_up() {
    let several = three().slot_terms(Bidder(3), Slot(1), [0, 0, 0]).slot_terms(Bidder(1), Slot(3), [0, 1, 0]).tick(5);
    let several = several.slot_terms(Bidder(1), Slot(2), [0, 2, 0]).build().expect("good terms");
    let expected = [[1, 0, 2, 1], [1, 0, 2, 2], [1, 3, 0, 0], [3, 2, 0, 0], [3, 3, 0, 0]].map(constraint);
    assert_eq!(several.all_constraints(), expected);
    assert!((1..=3).all(|bidder| several.is_downward(Bidder(bidder)) == Ok(true)));
}

#[test]
fn a_builder_refuses_wrong_terms_and_drops_none() {
    let wrong = [
        (Refusal::WrongBidder, three().slot_terms(Bidder(0), Slot(2), [1, 0, 3])),
        (Refusal::WrongBidder, three().slot_terms(Bidder(4), Slot(2), [1, 0, 3])),
        (Refusal::WrongLimit, three().slot_terms(Bidder(2), Slot(0), [1, 0, 3])),
        (Refusal::WrongLimit, three().slot_terms(Bidder(2), Slot(4), [1, 0, 3])),
        (Refusal::WrongBars, three().slot_terms(Bidder(2), Slot(2), [1, 0])),
        (Refusal::WrongBars, three().slot_terms(Bidder(2), Slot(2), [1, 0, 3, 0])),
        (Refusal::WrongBars, three().slot_terms(Bidder(2), Slot(2), [1, 0, 4])),
        (Refusal::BarAgainstOwner, three().slot_terms(Bidder(2), Slot(2), [1, 1, 3])),
        (Refusal::WrongBidders, SheetBuilder::new().effects(EFFECTS).slot_terms(Bidder(2), Slot(2), [1, 0, 3])),
        (Refusal::WrongSlots, SheetBuilder::new().bids(BIDS).slot_terms(Bidder(2), Slot(2), [1, 0, 3])),
    ];
    for (refusal, builder) in wrong {
        let (right, ticked) = (builder.clone().slot_terms(Bidder(1), Slot(3), [0; 3]), builder.clone().tick(1));
        assert_eq!(right.build(), Err(refusal), "other terms that are right do not help");
        assert_eq!(ticked.build(), Err(refusal));
        assert!(pas::check(&builder.bytes()).is_err(), "the bytes are those of no accepted sheet: {builder:?}");
        assert_eq!(builder.build(), Err(refusal));
    }
    // The first terms that are wrong decide.
    let two = three().slot_terms(Bidder(2), Slot(0), [1, 0, 3]).slot_terms(Bidder(4), Slot(2), [1, 0, 3]);
    assert_eq!(two.build(), Err(Refusal::WrongLimit));
}

#[test]
fn a_builder_with_more_bidders_or_slots_than_a_sheet_has_is_refused_and_not_cut() {
    for bidders in [65, 256 + 3, 300, 65_536 + 3] {
        let round = SheetBuilder::new().effects(EFFECTS).bids(vec![1; bidders]).slot_terms(Bidder(2), Slot(2), [1, 0, 3]);
        assert_eq!(round.build(), Err(Refusal::WrongBidders), "{bidders} bidders");
    }
    for slots in [17, 256 + 3, 300, 65_536 + 3] {
        let round = SheetBuilder::new().effects(vec![1; slots]).bids(BIDS).slot_terms(Bidder(2), Slot(2), [1, 0, 3]);
        assert_eq!(round.build(), Err(Refusal::WrongSlots), "{slots} slots");
    }
}

#[test]
fn a_builder_is_full_at_1024_constraints() {
    let largest = SheetBuilder::new().bids(vec![1; 64]).effects(vec![1; 16]).slot_terms(Bidder(7), Slot(1), highest_bars(64, 16, 7));
    let own = |owner, slot| Constraint { owner: Bidder(owner), kind: Kind::OwnSlot(Slot(slot)) };
    assert_eq!(largest.clone().build().expect("1,023 constraints").constraints(), 1023);
    let full = largest.clone().constraint(Bidder(8), Kind::OwnSlot(Slot(1)));
    assert_eq!(full.clone().build().expect("1,024 constraints").constraints(), 1024);
    let one_more = full.clone().slot_terms(Bidder(9), Slot(15), [0; 64]);
    assert_eq!(one_more.clone().build(), Err(Refusal::TooManyConstraints));
    assert_eq!(one_more.tick(1).build(), Err(Refusal::TooManyConstraints));
    assert_eq!(
        full.clone().slot_terms(Bidder(9), Slot(16), [0; 64]).build().map(|sheet| sheet.constraints()),
        Ok(1024),
        "no constraint more"
    );
    // Repeats count in version 1, and in version 2 they do not.
    let again = full.slot_terms(Bidder(7), Slot(15), [0; 64]);
    assert_eq!(again.clone().build(), Err(Refusal::TooManyConstraints));
    assert_eq!(again.tick(1).build().map(|sheet| sheet.constraints()), Ok(1024));
    // 64 lists of 1,023 and 64 constraints more are 65,536, which would be 0 in the field if it were cut.
    let all = (1..=64).fold(SheetBuilder::new().bids(vec![1; 64]).effects(vec![1; 16]), |round, owner| {
        round.slot_terms(Bidder(owner), Slot(1), highest_bars(64, 16, owner))
    });
    assert_eq!(all.constraints((0..64).map(|_| own(1, 1))).build(), Err(Refusal::TooManyConstraints));
}
