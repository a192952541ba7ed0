//! Demand 3 of document 01 on random rounds: the honest list gains at least as much as a downward monotonic list sent instead; with request S-7 of
//! document 02 also where both sheets are played with the same floors, and with requests S-1 and S-2 for the lists of top-of-page terms and of rivals, which
//! need no test.

use independent::random::{floors, in_ticks, rivals, round, terms, tick, Floors, Manner, Random, Size};
use independent::slow;
use pas::{Bidder, Sheet, Slot};

/// A list that is sent instead of the honest one: of a bidder, for a round of a size.
type List = fn(&mut Random, Size, u8) -> Vec<slow::Constraint>;

/// Any list that is downward monotonic: what each constraint asks for is added.
fn made_downward(random: &mut Random, size: Size, bidder: u8) -> Vec<slow::Constraint> {
    let mut list = round(random, size, Manner::Mixed, 9, 9).constraints;
    list.retain(|of| of[0] == bidder);
    for [owner, own, other, slot] in list.clone() {
        if own > 0 {
            list.extend((own + 1..=size.slots as u8).map(|lower| [owner, lower, other, slot]));
        }
    }
    list
}

/// The constraints of bytes that the library has written.
fn constraints(written: &[u8]) -> Vec<slow::Constraint> {
    written.chunks_exact(4).map(|field| [field[0], field[1], field[2], field[3]]).collect()
}

/// The list that the library writes from top-of-page terms: nobody has tested it.
fn of_terms(random: &mut Random, size: Size, bidder: u8) -> Vec<slow::Constraint> {
    let mut of = terms(random, size.bidders, size.slots);
    of.bars[usize::from(bidder) - 1] = 0;
    let (mut result, limit) = ([0; 4092], Slot(of.limit as u8));
    let count = pas::slot_terms_into(size.bidders, size.slots, Bidder(bidder), limit, &of.bars, &mut result).expect("terms that are right");
    constraints(&result[..4 * count])
}

/// The list that the library writes from a set of rivals: nobody has tested it either.
fn of_rivals(random: &mut Random, size: Size, bidder: u8) -> Vec<slow::Constraint> {
    let mut set: Vec<Bidder> = rivals(random, size.bidders, size.slots).rivals.into_iter().map(Bidder).collect();
    set.retain(|&rival| rival != Bidder(bidder));
    let mut result = [0; 4056];
    let count = pas::above_terms_into(size.bidders, size.slots, Bidder(bidder), &set, &mut result).expect("rivals that are right");
    constraints(&result[..4 * count])
}

fn sheet(round: &slow::Round) -> Sheet {
    Sheet::from_bytes(&slow::sheet(round)).expect("a good sheet")
}

/// A way to write the same tick: 1 can be left out, in version 1.
fn same_tick(random: &mut Random, tick: Option<u32>) -> Option<u32> {
    match tick {
        None | Some(1) => random.one_of(&[None, Some(1)]),
        larger => larger,
    }
}

/// Two sheets that differ only in a bidder's list, which is downward monotonic in the second, and a worth that is not below its bid.
struct Choice {
    honest: Sheet,
    told: Sheet,
    bidder: Bidder,
    worth: u32,
}

/// The choice of a bidder in a random round, and floors for the round.
fn random_choice(random: &mut Random, list: List) -> (Choice, Vec<u32>) {
    let size = Size { bidders: random.between(2, 7), slots: random.between(1, 6), constraints: random.between(0, 14) };
    let tick = tick(random);
    let step = tick.unwrap_or(1);
    let highest_bid = (9 * step as usize).min(1_000_000_000);
    let honest = in_ticks(round(random, size, Manner::Mixed, highest_bid, 9), tick);
    let bidder = random.byte(1, size.bidders);
    let mut told = slow::Round { constraints: list(random, size, bidder), ..honest.clone() };
    told.constraints.extend(honest.constraints.iter().filter(|of| of[0] != bidder));
    let told = in_ticks(told, same_tick(random, tick));
    let bid = honest.bids[usize::from(bidder) - 1];
    let worth = (bid + random.between(0, 2 * step as usize + 3) as u32).min(1_000_000_000);
    let kind = random.one_of(&Floors::ALL);
    let floors = floors(random, &honest, kind);
    (Choice { honest: sheet(&honest), told: sheet(&told), bidder: Bidder(bidder), worth }, floors)
}

/// Plays so many choices between the honest list and another.
fn no_list_gains_more(seed: u64, times: usize, list: List) {
    let (mut random, mut losses, mut of_two_versions) = (Random::seeded(seed), 0, 0);
    for _ in 0..times {
        let (Choice { honest, told, bidder, worth }, _) = random_choice(&mut random, list);
        assert_eq!(told.is_downward(bidder), Ok(true));
        let gain = |played: &Sheet| played.gain(&honest, bidder, worth).expect("sheets of one size");
        let (first, second) = (gain(&honest), gain(&told));
        assert!(first >= second, "{honest:?} {told:?} {bidder:?} {worth}");
        losses += usize::from(first > second);
        of_two_versions += usize::from(first > second && honest.version() != told.version());
    }
    assert!(losses > 1000 && of_two_versions > 100, "often the other list costs something: {losses}, {of_two_versions}");
}

/// The same with floors.
fn no_list_gains_more_with_floors(seed: u64, times: usize, list: List) {
    let (mut random, mut losses, mut by_floors) = (Random::seeded(seed), 0, 0);
    for _ in 0..times {
        let (Choice { honest, told, bidder, worth }, floors) = random_choice(&mut random, list);
        assert_eq!(told.is_downward(bidder), Ok(true));
        let gain = |played: &Sheet| played.gain_floors(&floors, &honest, bidder, worth).expect("sheets of one size");
        let (first, second) = (gain(&honest), gain(&told));
        assert!(first >= second, "{honest:?} {told:?} {floors:?} {bidder:?} {worth}");
        losses += usize::from(first > second);
        by_floors += usize::from(first > second && honest.gain(&honest, bidder, worth) != Ok(first));
    }
    assert!(losses > 1000 && by_floors > 500, "often the other list costs something, and floors count: {losses}, {by_floors}");
}

#[test]
fn no_downward_list_gains_more_than_the_honest_one() {
    no_list_gains_more(7, 30_000, made_downward);
}

#[test]
fn with_the_same_floors_no_downward_list_gains_more_than_the_honest_one() {
    no_list_gains_more_with_floors(8, 60_000, made_downward);
}

#[test]
fn no_list_of_terms_gains_more_than_the_honest_one() {
    no_list_gains_more(9, 30_000, of_terms);
}

#[test]
fn with_the_same_floors_no_list_of_terms_gains_more_than_the_honest_one() {
    no_list_gains_more_with_floors(10, 60_000, of_terms);
}

#[test]
fn no_list_of_rivals_gains_more_than_the_honest_one() {
    no_list_gains_more(11, 30_000, of_rivals);
}

#[test]
fn with_the_same_floors_no_list_of_rivals_gains_more_than_the_honest_one() {
    no_list_gains_more_with_floors(12, 60_000, of_rivals);
}
