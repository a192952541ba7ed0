//! Above named rivals: which constraints are written from a set of rivals, each refusal and their order, what stays as it was, and rivals in a builder.

mod terms;
mod written;

use pas::{raw, Bidder, Kind, Refusal, Sheet, SheetBuilder, Slot};
use terms::{constraint, WritesTerms};
use written::{in_ticks, numbers, round, sheet, Written};

/// A call with plain numbers.
#[derive(Clone, Debug)]
struct Call {
    n: u32,
    m: u32,
    owner: u32,
    rivals: Vec<u8>,
}

fn call(n: u32, m: u32, owner: u32, rivals: &[u8]) -> Call {
    Call { n, m, owner, rivals: rivals.to_vec() }
}

impl WritesTerms for Call {
    fn lent(&self, room: usize) -> (u32, Vec<u8>, u32) {
        let (mut result, mut count) = (vec![7; room], 77);
        let number = raw::above_terms(self.n, self.m, self.owner, &self.rivals, &mut result, &mut count);
        (number, result, count)
    }
}

fn bidders(numbers: &[u8]) -> Vec<Bidder> {
    numbers.iter().copied().map(Bidder).collect()
}

#[test]
fn rivals_give_the_worked_list() {
    let worked = [[1, 2, 2, 1], [1, 2, 3, 1], [1, 3, 2, 1], [1, 3, 2, 2], [1, 3, 3, 1], [1, 3, 3, 2]];
    call(3, 3, 1, &[3, 2, 3]).gives(&worked);
    assert_eq!(pas::above_terms(3, 3, Bidder(1), &bidders(&[3, 2, 3])), Ok(worked.map(constraint).to_vec()));
}

#[test]
fn a_rival_is_above_in_every_pair_of_slots_that_is_written() {
    call(2, 2, 2, &[1]).gives(&[[2, 2, 1, 1]]);
    call(9, 4, 2, &[9]).gives(&[[2, 2, 9, 1], [2, 3, 9, 1], [2, 3, 9, 2], [2, 4, 9, 1], [2, 4, 9, 2], [2, 4, 9, 3]]);
    call(4, 2, 2, &[4, 1]).gives(&[[2, 2, 1, 1], [2, 2, 4, 1]]);
}

#[test]
fn neither_order_nor_repeats_matter() {
    let expected =
        [[2, 2, 1, 1], [2, 2, 3, 1], [2, 2, 4, 1], [2, 3, 1, 1], [2, 3, 1, 2], [2, 3, 3, 1], [2, 3, 3, 2], [2, 3, 4, 1], [2, 3, 4, 2]];
    for set in [[1, 3, 4], [1, 4, 3], [3, 1, 4], [3, 4, 1], [4, 1, 3], [4, 3, 1]] {
        call(4, 3, 2, &set).gives(&expected);
        call(4, 3, 2, &set.repeat(2)).gives(&expected);
        call(4, 3, 2, &set.map(|rival| [rival; 3]).concat()).gives(&expected);
    }
    // More than a byte counts, and more than two.
    for times in [85, 86, 100, 22_000] {
        call(4, 3, 2, &[4, 3, 1].repeat(times)).gives(&expected);
    }
}

#[test]
fn without_rivals_or_with_one_slot_nothing_is_written_and_no_room_is_needed() {
    call(1, 1, 1, &[]).gives(&[]);
    call(64, 16, 64, &[]).gives(&[]);
    call(64, 1, 5, &[64, 1, 2]).gives(&[]);
    assert_eq!(call(2, 1, 1, &[2]).lent(0), (0, vec![], 0));
    assert_eq!(pas::above_terms(2, 2, Bidder(1), &[]), Ok(vec![]));
}

/// All pairs for an owner and its rivals, these in rising order.
fn all_pairs(owner: u8, rivals: &[u8], slots: u8) -> Vec<Written> {
    let below = |own: u8| rivals.iter().flat_map(move |&rival| (1..own).map(move |slot| [owner, own, rival, slot]));
    (1..=slots).flat_map(below).collect()
}

/// So many rivals of an owner, the highest of 64.
fn highest_rivals(owner: u8, count: usize) -> Vec<u8> {
    let mut rivals: Vec<u8> = (1..=64).rev().filter(|&rival| rival != owner).take(count).collect();
    rivals.reverse();
    rivals
}

#[test]
fn the_longest_lists_are_of_1014_constraints() {
    for owner in [1, 2, 33, 63, 64] {
        let rivals = highest_rivals(owner, 13);
        let expected = all_pairs(owner, &rivals, 13);
        assert_eq!(expected.len(), 1014);
        call(64, 13, u32::from(owner), &rivals).gives(&expected);

        let (rivals, owner) = (bidders(&rivals), Bidder(owner));
        let terms = pas::above_terms(64, 13, owner, &rivals).expect("good rivals");
        assert_eq!(terms, expected.iter().copied().map(constraint).collect::<Vec<_>>());
        let (mut exact, mut short) = ([7; 4056], [7; 4055]);
        assert_eq!(pas::above_terms_into(64, 13, owner, &rivals, &mut exact), Ok(1014));
        assert_eq!(exact, *expected.as_flattened());
        assert_eq!(pas::above_terms_into(64, 13, owner, &rivals, &mut short), Err(Refusal::ResultTooShort));
        assert_eq!(short, [7; 4055]);
    }
}

#[test]
fn more_than_1024_constraints_are_refused_and_no_fewer() {
    let mut seen = [0; 2];
    for slots in 1..=16 {
        for count in 0..=63 {
            let rivals = highest_rivals(9, count);
            let expected = all_pairs(9, &rivals, slots);
            match expected.len() > 1024 {
                true => assert_eq!(call(64, u32::from(slots), 9, &rivals).lent(10_000), (25, vec![7; 10_000], 77)),
                false => call(64, u32::from(slots), 9, &rivals).gives(&expected),
            }
            seen[usize::from(expected.len() > 1024)] += 1;
        }
    }
    assert!(seen.iter().all(|&times| times > 100), "{seen:?}");
    // The counts nearest to 1,024 on both sides, and repeats, which do not count.
    assert_eq!(call(64, 13, 9, &highest_rivals(9, 13)).lent(4056).2, 1014);
    call(64, 7, 9, &highest_rivals(9, 49)).refused(25);
    assert_eq!(call(64, 16, 9, &highest_rivals(9, 8).repeat(9)).lent(4096).2, 960);
}

#[test]
fn each_number_is_refused_outside_its_range_and_not_cut() {
    // 256 more is the same in the low byte, 65,536 more in the low two.
    let outside = |right: u32, most: u32| [0, most + 1, 255, right + 256, 300, right + 65_536, right + (1 << 31), u32::MAX];
    for n in outside(3, 64) {
        call(n, 3, 1, &[3, 2]).refused(4);
    }
    for m in outside(3, 16) {
        call(3, m, 1, &[3, 2]).refused(5);
    }
    for owner in outside(1, 3) {
        call(3, 3, owner, &[3, 2]).refused(16);
    }
    for rival in [0, 4, 5, 64, 65, 67, 128, 129, 255] {
        call(3, 3, 1, &[rival]).refused(23);
        call(3, 3, 1, &[rival, 3, 2]).refused(23);
        call(3, 3, 1, &[3, 2, rival]).refused(23);
    }
    call(3, 3, 1, &[1]).refused(24);
    call(3, 3, 1, &[1, 3, 2]).refused(24);
    call(3, 3, 1, &[3, 2, 1]).refused(24);
}

#[test]
fn the_edges_of_each_range_are_answered() {
    call(64, 2, 64, &[1, 63]).gives(&[[64, 2, 1, 1], [64, 2, 63, 1]]);
    call(64, 2, 1, &[64]).gives(&[[1, 2, 64, 1]]);
    call(2, 2, 1, &[2]).gives(&[[1, 2, 2, 1]]);
    call(64, 16, 64, &[1]).gives(&all_pairs(64, &[1], 16));
    call(1, 16, 1, &[1]).refused(24);
    call(1, 16, 1, &[2]).refused(23);
    call(65, 16, 1, &[2]).refused(4);
    call(64, 17, 1, &[2]).refused(5);
}

#[test]
fn every_rival_is_looked_at() {
    for at in 0..300 {
        let mut rivals = [2; 300];
        rivals[at] = 65;
        call(64, 3, 5, &rivals).refused(23);
        rivals[at] = 0;
        call(64, 3, 5, &rivals).refused(23);
        rivals[at] = 5;
        call(64, 3, 5, &rivals).refused(24);
        rivals[at] = 64;
        call(64, 3, 5, &rivals).gives(&all_pairs(5, &[2, 64], 3));
    }
    for rival in 1..=64 {
        match rival {
            5 => call(64, 3, 5, &[rival]).refused(24),
            _ => call(64, 3, 5, &[rival]).gives(&all_pairs(5, &[rival], 3)),
        }
    }
}

/// A rule's number, and what makes a call break it.
type Fault = (u32, fn(&mut Call));

/// A fault for each rule but that of the buffer, in the order of the rules.
const FAULTS: [Fault; 6] = [
    (4, |call| call.n = 65),
    (5, |call| call.m = 0),
    (16, |call| call.owner = 0),
    (23, |call| call.rivals.push(0)),
    (24, |call| call.rivals.insert(0, 2)),
    (25, |call| call.rivals.extend(30..=60)),
];

/// The same, each at the other end of its rule.
const OTHER_FAULTS: [Fault; 6] = [
    (4, |call| call.n = 0),
    (5, |call| call.m = 17),
    (16, |call| call.owner = 66),
    (23, |call| call.rivals.insert(0, 65)),
    (24, |call| call.rivals.push(2)),
    (25, |call| call.rivals.extend(55..=64)),
];

#[test]
fn of_two_rules_that_are_broken_the_first_decides() {
    let right = || call(64, 16, 2, &[1, 3]);
    assert_eq!(right().lent(960).0, 0);
    for faults in [FAULTS, OTHER_FAULTS] {
        for (at, (number, spoil)) in faults.into_iter().enumerate() {
            let mut once = right();
            spoil(&mut once);
            once.refused(number);
            for later in [FAULTS, OTHER_FAULTS] {
                for (_, spoil_too) in &later[at + 1..] {
                    let mut twice = right();
                    spoil_too(&mut twice);
                    spoil(&mut twice);
                    twice.refused(number);
                }
            }
        }
    }
    let mut wrong = right();
    for (number, spoil) in FAULTS.into_iter().rev() {
        spoil(&mut wrong);
        wrong.refused(number);
    }
}

#[test]
fn a_short_buffer_comes_last() {
    for (number, spoil) in FAULTS.into_iter().chain(OTHER_FAULTS) {
        let mut wrong = call(64, 16, 2, &[1, 3]);
        spoil(&mut wrong);
        assert_eq!(wrong.lent(0), (number, vec![], 77));
        assert_eq!(wrong.lent(959), (number, vec![7; 959], 77));
    }
    assert_eq!(call(64, 16, 2, &[1, 3]).lent(959), (19, vec![7; 959], 77));
}

#[test]
fn the_wrapper_names_the_refusals_and_cuts_nothing() {
    let terms = |n, m, owner, rivals: &[u8]| pas::above_terms(n, m, Bidder(owner), &bidders(rivals));
    for n in [0, 65, 300, 256 + 3, 65_536 + 3, (1 << 32) + 3, usize::MAX] {
        assert_eq!(terms(n, 3, 1, &[2]), Err(Refusal::WrongBidders), "{n} bidders");
    }
    for m in [0, 17, 300, 256 + 3, 65_536 + 3, (1 << 32) + 3, usize::MAX] {
        assert_eq!(terms(3, m, 1, &[2]), Err(Refusal::WrongSlots), "{m} slots");
    }
    assert_eq!(terms(3, 3, 0, &[2]), Err(Refusal::WrongBidder));
    assert_eq!(terms(3, 3, 4, &[2]), Err(Refusal::WrongBidder));
    assert_eq!(terms(3, 3, 1, &[0]), Err(Refusal::WrongSet));
    assert_eq!(terms(3, 3, 1, &[4]), Err(Refusal::WrongSet));
    assert_eq!(terms(3, 3, 1, &[2, 1]), Err(Refusal::RivalIsOwner));
    assert_eq!(terms(64, 16, 1, &highest_rivals(1, 9)), Err(Refusal::TooManyTerms));
    let (mut result, rivals) = ([7; 16], [Bidder(3)]);
    assert_eq!(pas::above_terms_into(3, 3, Bidder(1), &rivals, &mut result[..11]), Err(Refusal::ResultTooShort));
    assert_eq!(result, [7; 16]);
    assert_eq!(pas::above_terms_into(3, 3, Bidder(1), &rivals, &mut result), Ok(3));
    assert_eq!(result, [1, 2, 3, 1, 1, 3, 3, 1, 1, 3, 3, 2, 7, 7, 7, 7]);
}

const BIDS: [u32; 3] = [30, 20, 10];
const EFFECTS: [u32; 3] = [4, 2, 1];

fn three() -> SheetBuilder {
    round(&BIDS, &EFFECTS, &[])
}

#[test]
fn a_builder_puts_the_constraints_on_its_sheet() {
    let above = three().above_terms(Bidder(2), [Bidder(1)]);
    let plain = sheet(&BIDS, &EFFECTS, &[[2, 2, 1, 1], [2, 3, 1, 1], [2, 3, 1, 2]]);
    assert_eq!(above.bytes(), plain.as_bytes());
    assert_eq!(above.clone().tick(1).build(), Ok(plain.canonical()));
    let sheet = above.build().expect("good rivals");
    assert_eq!(sheet.list_of(Bidder(2)), pas::above_terms(3, 3, Bidder(2), &[Bidder(1)]).expect("good rivals"));
    assert_eq!(sheet.is_downward(Bidder(2)), Ok(true));
    assert_eq!(numbers(&sheet.play().bidders()), [1, 3, 0], "2 will not stand below 1");
}

#[test]
fn round_h_is_a_round_of_rivals() {
    let round_h = Sheet::from_bytes(include_bytes!("../../../sheets/H.pas")).expect("sheet H is good");
    let round = SheetBuilder::new().effects([10_000, 4_500, 2_025]).bids([30, 32, 36, 40]);
    let above = (1..=3).fold(round, |round, upper| round.above_terms(Bidder(upper), [Bidder(upper + 1)]));
    assert!(above.build().expect("good rivals").same_round(&round_h));
}

#[test]
fn a_builder_uses_the_bidders_and_slots_that_the_sheet_has_in_the_end() {
    let rivals = [Bidder(3), Bidder(1)];
    let first = SheetBuilder::new().above_terms(Bidder(2), rivals).effects(EFFECTS).bids(BIDS);
    let between = SheetBuilder::new().effects([4, 2]).bids([30]).above_terms(Bidder(2), rivals).effects([1]).bids([20, 10]);
    let last = three().above_terms(Bidder(2), rivals).build();
    assert_eq!(last.as_ref().map(Sheet::constraints), Ok(6));
    assert_eq!(first.build(), last);
    assert_eq!(between.build(), last);
}

#[test]
fn rivals_stand_among_the_other_constraints_as_they_came_in_version_1_and_in_order_in_version_2() {
    let own = |slot| Kind::OwnSlot(Slot(slot));
    let mixed = three().constraint(Bidder(3), own(1)).above_terms(Bidder(1), [Bidder(2)]).slot_terms(Bidder(1), Slot(2), [0, 1, 0]);
    let written = |sheet: &Sheet| sheet.all_constraints();
    let as_they_came = [[3, 1, 0, 0], [1, 2, 2, 1], [1, 3, 2, 1], [1, 3, 2, 2], [1, 0, 2, 1], [1, 3, 0, 0]].map(constraint);
    assert_eq!(written(&mixed.clone().build().expect("a good sheet")), as_they_came);
    let in_order = [[1, 0, 2, 1], [1, 2, 2, 1], [1, 3, 0, 0], [1, 3, 2, 1], [1, 3, 2, 2], [3, 1, 0, 0]].map(constraint);
    assert_eq!(written(&mixed.tick(1).build().expect("a good sheet")), in_order);
}

#[test]
fn no_rivals_leave_the_sheet_as_it_is() {
    assert_eq!(three().tick(10).above_terms(Bidder(1), []).build(), Ok(in_ticks(10, &BIDS, &EFFECTS)));
}

#[test]
fn rivals_of_several_bidders_and_two_sets_of_one_add_up() {
    let several = three().above_terms(Bidder(3), [Bidder(1)]).above_terms(Bidder(1), [Bidder(2)]).tick(5);
    let several = several.above_terms(Bidder(1), [Bidder(3), Bidder(2)]).build().expect("good rivals");
    let expected = [all_pairs(1, &[2, 3], 3), all_pairs(3, &[1], 3)].concat();
    assert_eq!(several.all_constraints(), expected.into_iter().map(constraint).collect::<Vec<_>>());
    assert!((1..=3).all(|bidder| several.is_downward(Bidder(bidder)) == Ok(true)));
}

#[test]
fn a_builder_refuses_wrong_rivals_and_drops_none() {
    let large = || SheetBuilder::new().bids(vec![1; 64]).effects(vec![1; 16]);
    let wrong = [
        (Refusal::WrongBidder, three().above_terms(Bidder(0), [Bidder(1)])),
        (Refusal::WrongBidder, three().above_terms(Bidder(4), [Bidder(1)])),
        (Refusal::WrongSet, three().above_terms(Bidder(2), [Bidder(1), Bidder(0)])),
        (Refusal::WrongSet, three().above_terms(Bidder(2), [Bidder(1), Bidder(4)])),
        (Refusal::RivalIsOwner, three().above_terms(Bidder(2), [Bidder(1), Bidder(2)])),
        (Refusal::TooManyTerms, large().above_terms(Bidder(2), (3..=11).map(Bidder))),
        (Refusal::WrongBidders, SheetBuilder::new().effects(EFFECTS).above_terms(Bidder(2), [Bidder(1)])),
        (Refusal::WrongSlots, SheetBuilder::new().bids(BIDS).above_terms(Bidder(2), [Bidder(1)])),
    ];
    for (refusal, builder) in wrong {
        let (right, ticked) = (builder.clone().above_terms(Bidder(1), [Bidder(3)]), builder.clone().tick(1));
        assert_eq!(right.build(), Err(refusal), "other rivals that are right do not help");
        assert_eq!(ticked.build(), Err(refusal));
        assert!(pas::check(&builder.bytes()).is_err(), "the bytes are those of no accepted sheet: {builder:?}");
        assert_eq!(builder.build(), Err(refusal));
    }
    // The first that is wrong decides, rivals or terms.
    let two = three().above_terms(Bidder(2), [Bidder(2)]).slot_terms(Bidder(2), Slot(0), [1, 0, 3]);
    assert_eq!(two.build(), Err(Refusal::RivalIsOwner));
    let two = three().slot_terms(Bidder(2), Slot(0), [1, 0, 3]).above_terms(Bidder(2), [Bidder(2)]);
    assert_eq!(two.build(), Err(Refusal::WrongLimit));
}

#[test]
fn a_builder_is_full_at_1024_constraints() {
    let largest = SheetBuilder::new().bids(vec![1; 64]).effects(vec![1; 13]).above_terms(Bidder(7), bidders(&highest_rivals(7, 13)));
    assert_eq!(largest.clone().build().expect("1,014 constraints").constraints(), 1014);
    let more = (1..=10).fold(largest, |round, slot| round.constraint(Bidder(8), Kind::OwnSlot(Slot(slot))));
    assert_eq!(more.clone().build().expect("1,024 constraints").constraints(), 1024);
    let one_too_many = more.clone().above_terms(Bidder(9), [Bidder(1)]);
    assert_eq!(one_too_many.clone().build(), Err(Refusal::TooManyConstraints));
    assert_eq!(one_too_many.tick(1).build(), Err(Refusal::TooManyConstraints));
    // Repeats count in version 1, and in version 2 they do not.
    let again = more.above_terms(Bidder(7), [Bidder(64)]);
    assert_eq!(again.clone().build(), Err(Refusal::TooManyConstraints));
    assert_eq!(again.tick(1).build().map(|sheet| sheet.constraints()), Ok(1024));
}
