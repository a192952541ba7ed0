//! How far below the best: which lists come from rivals, the factor that they give, that the bound holds and is met, each refusal, and what stays as it was.

mod written;

use independent::random::{in_ticks, tick, Random};
use independent::slow::{self, Round};
use independent::{engine, random};
use pas::{raw, Bidder, Refusal, Sheet, SheetBuilder};
use std::collections::BTreeSet;
use written::{numbers, round, sheet, Written};

/// The factor of an accepted sheet, by the call with plain numbers.
#[track_caller]
fn factor(sheet: &[u8]) -> u32 {
    let mut factor = 77;
    assert_eq!(raw::loss_bound(sheet, &mut factor), 0, "{sheet:?}");
    factor
}

/// The factor of a round with bids and effects of 1 and these constraints, in version 1 as they come.
#[track_caller]
fn factor_of(bidders: usize, slots: usize, constraints: &[Written]) -> u32 {
    factor(sheet(&vec![1; bidders], &vec![1; slots], constraints).as_bytes())
}

/// All constraints of an owner that stands only above its rivals, as the library writes them.
fn above(bidders: usize, slots: usize, owner: u8, rivals: &[u8]) -> Vec<Written> {
    let (mut room, mut count) = ([0; 4056], 0);
    assert_eq!(raw::above_terms(bidders as u32, slots as u32, u32::from(owner), rivals, &mut room, &mut count), 0);
    room[..4 * count as usize].chunks_exact(4).map(|of| [of[0], of[1], of[2], of[3]]).collect()
}

/// The same for all bidders, from bidder 1's rivals on; those after them name nobody.
fn lists(bidders: usize, slots: usize, sets: &[&[u8]]) -> Vec<Written> {
    (1..).zip(sets).flat_map(|(owner, rivals)| above(bidders, slots, owner, rivals)).collect()
}

#[test]
fn round_h_has_factor_2() {
    let round_h = Sheet::from_bytes(include_bytes!("../../../sheets/H.pas")).expect("sheet H is good");
    assert_eq!(round_h.loss_bound(), Some(2));
    assert_eq!(numbers(&round_h.play().bidders()), [4, 2, 0]);
    let (played, best) = (40 * 10_000 + 32 * 4_500, round_h.best_page().expect("a small round").total);
    assert!(played < best && best <= 2 * played);
    for name in ["H1", "H1-mixed", "H2"] {
        let bytes = std::fs::read(format!("{}/../../sheets/{name}.pas", env!("CARGO_MANIFEST_DIR"))).expect("a sheet of the repository");
        assert_eq!(pas::loss_bound(&bytes), Ok(Some(2)), "{name} has the conditions of H");
    }
}

#[test]
fn the_factor_is_one_more_than_the_bidders_that_name_one_same_rival() {
    let of = |sets: &[&[u8]]| factor_of(5, 3, &lists(5, 3, sets));
    assert_eq!(of(&[]), 1);
    assert_eq!(of(&[&[2]]), 2);
    assert_eq!(of(&[&[2, 3, 4, 5]]), 2, "one bidder names all others");
    assert_eq!(of(&[&[2], &[3], &[4], &[5], &[1]]), 2);
    assert_eq!(of(&[&[2], &[1]]), 2);
    assert_eq!(of(&[&[5], &[], &[5]]), 3);
    assert_eq!(of(&[&[], &[1], &[1], &[1], &[1]]), 5);
    assert_eq!(of(&[&[2, 3], &[3, 4], &[4, 5], &[3], &[1, 3]]), 5, "3 has four of the nine names");
}

#[test]
fn up_to_63_bidders_name_one_same_rival() {
    for namers in 0..=63u8 {
        let of_last: Vec<Written> = (1..=namers).flat_map(|owner| above(64, 2, owner, &[64])).collect();
        let of_first: Vec<Written> = (1..=namers).flat_map(|owner| above(64, 2, owner + 1, &[1])).collect();
        assert_eq!(factor_of(64, 2, &of_last), u32::from(namers) + 1);
        assert_eq!(factor_of(64, 2, &of_first), u32::from(namers) + 1);
    }
    // As many names as a sheet has room for: 16 rivals of each of 64 bidders, everyone named by 16.
    let rivals = |owner: u8| (1..=16).map(|step| (owner + step - 1) % 64 + 1).collect::<Vec<u8>>();
    let full: Vec<Written> = (1..=64).flat_map(|owner| above(64, 2, owner, &rivals(owner))).collect();
    assert_eq!((full.len(), factor_of(64, 2, &full)), (1024, 17));
}

#[test]
fn who_is_named_and_who_names_may_be_any_of_64() {
    for owner in 1..=64u8 {
        for rival in (1..=64).filter(|&rival| rival != owner) {
            assert_eq!(factor_of(64, 3, &above(64, 3, owner, &[rival])), 2);
            assert_eq!(factor_of(64, 3, &above(64, 3, owner, &[rival])[1..]), 0);
        }
    }
}

#[test]
fn without_constraints_the_factor_is_1_and_the_page_is_a_best_one() {
    let mut random = Random::seeded(31);
    for _ in 0..2_000 {
        let (bidders, slots) = (random.between(1, 64), random.between(1, 16));
        let round = profile_round(&mut random, bidders, slots, Vec::new());
        let sheet = Sheet::from_bytes(&slow::sheet(&round)).expect("a good sheet");
        assert_eq!(sheet.loss_bound(), Some(1));
        assert_eq!(played_total(&round, &sheet), slow::largest_total(&round), "{round:?}");
    }
}

#[test]
fn with_one_slot_no_list_has_a_constraint() {
    for bidders in [1, 2, 64] {
        assert_eq!(factor_of(bidders, 1, &[]), 1);
    }
    for constraint in [[1, 1, 0, 0], [1, 0, 2, 1], [1, 1, 2, 1]] {
        assert_eq!(factor_of(2, 1, &[constraint]), 0, "{constraint:?}");
    }
    let round = SheetBuilder::new().effects([1]).bids([1, 1]).above_terms(Bidder(1), [Bidder(2)]);
    assert_eq!(round.build().expect("good rivals").loss_bound(), Some(1), "rivals give nothing to write where there is one slot");
}

#[test]
fn every_pair_counts_and_one_for_another_is_found() {
    for (bidders, slots, sets) in [(4, 3, &[&[2u8][..], &[3], &[4]][..]), (5, 6, &[&[5], &[1, 5], &[], &[5]]), (64, 16, &[&[64, 2], &[1]])]
    {
        let whole = lists(bidders, slots, sets);
        let full = factor_of(bidders, slots, &whole);
        assert!(full > 1);
        for at in 0..whole.len() {
            let mut without = whole.clone();
            let gone = without.remove(at);
            assert_eq!(factor_of(bidders, slots, &without), 0, "{gone:?} is missing");
            for again in [0, without.len() / 2, without.len() - 1] {
                let mut twice = without.clone();
                twice.push(without[again]);
                assert_eq!(factor_of(bidders, slots, &twice), 0, "{gone:?} is missing, and {:?} is there twice", without[again]);
                twice.push(gone);
                assert_eq!(factor_of(bidders, slots, &twice), full, "{:?} is there twice", without[again]);
            }
        }
    }
}

#[test]
fn another_bidders_pair_is_no_pair_of_the_list() {
    // As many constraints as two whole lists have: bidder 1's pairs about 2 but one, with one about 3 or with one of another bidder's.
    let (mut one, two) = (above(3, 3, 1, &[2]), above(3, 3, 2, &[3]));
    one.pop();
    for other in [[1, 3, 3, 2], [3, 3, 1, 2], [2, 3, 1, 2], [3, 3, 2, 2]] {
        assert_eq!(factor_of(3, 3, &[&one[..], &two, &[other]].concat()), 0, "{other:?}");
    }
    assert_eq!(factor_of(3, 3, &[&one[..], &two, &[[1, 3, 2, 2]]].concat()), 2);
}

#[test]
fn neither_order_nor_repeats_matter() {
    let whole = lists(5, 4, &[&[2, 3], &[], &[2], &[2, 1]]);
    let (mut reversed, mut by_slots) = (whole.clone(), whole.clone());
    reversed.reverse();
    by_slots.sort_by_key(|&[owner, own, other, slot]| (slot, other, own, owner));
    for other in [&reversed, &by_slots, &[&whole[..], &whole].concat(), &[&reversed[..7], &by_slots, &whole[3..], &whole[..9]].concat()] {
        assert_eq!(factor_of(5, 4, other), 4);
        assert_eq!(factor(round(&[1; 5], &[1; 4], other).tick(1).build().expect("in order").as_bytes()), 4);
    }
}

#[test]
fn a_sheet_may_be_full_of_repeats() {
    let whole = above(64, 16, 9, &[1, 2, 3, 4, 5, 6, 7, 8]);
    let full: Vec<Written> = whole.iter().copied().cycle().take(1024).collect();
    assert_eq!((whole.len(), factor_of(64, 16, &full)), (960, 2));
    let mut lacking = full;
    lacking.iter_mut().filter(|of| **of == whole[100]).for_each(|of| *of = whole[101]);
    assert_eq!(factor_of(64, 16, &lacking), 0);
}

/// Every constraint of a bidder that a sheet with so many bidders and slots accepts.
fn all_constraints(bidders: u8, slots: u8, owner: u8) -> Vec<Written> {
    let others = (1..=bidders).filter(move |&other| other != owner);
    let parts = others.flat_map(|other| (1..=slots).map(move |slot| (other, slot))).chain([(0, 0)]);
    let kinds = parts.flat_map(|(other, slot)| (0..=slots).map(move |own| [owner, own, other, slot]));
    kinds.filter(|kind| kind[1..] != [0; 3]).collect()
}

#[test]
fn one_constraint_of_another_kind_is_found_wherever_it_stands() {
    for sets in [&[&[2u8, 3][..], &[3]][..], &[&[], &[], &[1]], &[]] {
        let whole = lists(3, 3, sets);
        for more in (1..=3).flat_map(|owner| all_constraints(3, 3, owner)).filter(|more| !whole.contains(more)) {
            // Three slots have three pairs, so that no single constraint is a list of its own.
            for at in [0, whole.len() / 2, whole.len()] {
                let mut with = whole.clone();
                with.insert(at, more);
                assert_eq!(factor_of(3, 3, &with), 0, "{more:?} in {whole:?}");
            }
        }
    }
}

#[test]
fn of_all_sets_of_constraints_on_small_sheets_only_those_of_rivals_have_a_factor() {
    let subsets = |all: Vec<Written>| {
        let set = move |bits: u32| all.iter().enumerate().filter(|(at, _)| bits >> at & 1 == 1).map(|(_, of)| *of).collect::<Vec<_>>();
        (0..1 << set(u32::MAX).len()).map(set)
    };
    // Two bidders and two slots, both lists; two bidders and three slots, one list.
    let both = [all_constraints(2, 2, 1), all_constraints(2, 2, 2)].concat();
    let one = all_constraints(2, 3, 1);
    assert_eq!((both.len(), one.len()), (16, 15));
    let with_factor = |bidders, slots, all| {
        let mut given = Vec::new();
        for set in subsets(all) {
            let sheet = round(&vec![1; bidders], &vec![1; slots], &set).tick(1).build().expect("a good sheet");
            if let Some(factor) = sheet.loss_bound() {
                given.push((set, factor));
            }
        }
        given
    };
    let (first, second) = ([1, 2, 2, 1], [2, 2, 1, 1]);
    assert_eq!(with_factor(2, 2, both), [(vec![], 1), (vec![first], 2), (vec![second], 2), (vec![first, second], 2)]);
    let mut lists = with_factor(2, 3, one);
    lists.iter_mut().for_each(|(set, _)| set.sort_unstable());
    assert_eq!(lists, [(vec![], 1), (above(2, 3, 1, &[2]), 2)]);
}

/// A round with bids and effects of several kinds, often equal ones, in version 1 or 2.
fn profile_round(random: &mut Random, bidders: usize, slots: usize, constraints: Vec<Written>) -> Round {
    let tick = tick(random);
    let highest_bid = (random.one_of(&[1, 2, 10, 1_000_000_000]) * tick.unwrap_or(1) as usize).min(1_000_000_000);
    let highest_effect = random.one_of(&[1, 3, 1000, 1_000_000]);
    let size = random::Size { bidders, slots, constraints: 0 };
    let bare = random::round(random, size, random::Manner::Mixed, highest_bid, highest_effect);
    in_ticks(Round { constraints, ..bare }, tick)
}

/// Rival sets of all bidders, whose lists have room on one sheet: every other time most name one same rival.
fn random_sets(random: &mut Random, bidders: usize, slots: usize) -> Vec<Vec<u8>> {
    let all = 1..=bidders as u8;
    let mut names: Vec<(u8, u8)> = all.clone().flat_map(|owner| all.clone().map(move |rival| (owner, rival))).collect();
    names.retain(|(owner, rival)| owner != rival);
    random.shuffle(&mut names);
    if random.once_in(2) {
        let favourite = random.byte(1, bidders);
        names.sort_by_key(|&(_, rival)| rival != favourite);
    }
    let room = (1024 / (slots * (slots - 1) / 2).max(1)).min(names.len());
    let few = random.between(0, room.min(8));
    names.truncate(random.one_of(&[few, room, room / 2]));
    let mut sets = vec![Vec::new(); bidders];
    for (owner, rival) in names {
        sets[usize::from(owner) - 1].push(rival);
    }
    sets
}

/// The total of the page that the library plays.
fn played_total(round: &Round, sheet: &Sheet) -> u64 {
    slow::total(round, &numbers(&sheet.play().bidders()))
}

/// What is done to lists that all come from rivals.
#[derive(Clone, Copy, Debug)]
enum Change {
    Nothing,
    Shuffled,
    Repeats,
    PairMissing,
    PairForAnother,
    OwnSlot,
    OtherSlot,
    RivalBelow,
    SameSlot,
    PairMore,
}

const CHANGES: [Change; 10] = [
    Change::Nothing,
    Change::Shuffled,
    Change::Repeats,
    Change::PairMissing,
    Change::PairForAnother,
    Change::OwnSlot,
    Change::OtherSlot,
    Change::RivalBelow,
    Change::SameSlot,
    Change::PairMore,
];

fn changed(random: &mut Random, bidders: usize, slots: usize, mut all: Vec<Written>, change: Change) -> Vec<Written> {
    let owner = random.byte(1, bidders);
    let other = if bidders == 1 { 0 } else { (owner + random.byte(1, bidders - 1) - 1) % bidders as u8 + 1 };
    let (one, two) = (random.byte(1, slots), random.byte(1, slots));
    let more = match change {
        Change::OwnSlot => Some([owner, one, 0, 0]),
        Change::OtherSlot => Some([owner, 0, other, one]),
        Change::RivalBelow => Some([owner, one.min(two), other, one.max(two)]),
        Change::SameSlot => Some([owner, one, other, one]),
        Change::PairMore => Some([owner, one.max(two), other, one.min(two)]),
        _ => None,
    };
    // With one bidder only an own slot can be named.
    let more = more.filter(|of| of[2] != 0 || of[3] == 0);
    let any = (!all.is_empty()).then(|| random.between(0, all.len() - 1));
    match (change, any) {
        (Change::PairMissing, Some(at)) => drop(all.remove(at)),
        (Change::PairForAnother, Some(at)) => all[at] = random.one_of(&all),
        (Change::Repeats, Some(_)) => {
            for _ in 0..random.between(1, 2 * all.len()).min(1024 - all.len()) {
                let again = random.one_of(&all);
                all.push(again);
            }
        }
        _ => {}
    }
    if let Some(more) = more.filter(|_| all.len() < 1024) {
        all.insert(random.between(0, all.len()), more);
    }
    if !matches!(change, Change::Nothing) && random.once_in(2) {
        random.shuffle(&mut all);
    }
    all
}

fn random_size(random: &mut Random) -> (usize, usize) {
    let (bidders, slots) = (random.between(1, 64), random.between(1, 16));
    random.one_of(&[(bidders, slots), (bidders.min(9), slots.min(9)), (bidders.min(4), slots.min(4)), (64, 16), (64, 2), (bidders, 3)])
}

#[test]
fn the_factor_is_that_of_the_sets_of_constraints_and_of_the_independent_engine() {
    let (mut random, mut answers) = (Random::seeded(32), [[0; 2]; CHANGES.len()]);
    for _ in 0..6_000 {
        let (bidders, slots) = random_size(&mut random);
        let sets = random_sets(&mut random, bidders, slots);
        let sets: Vec<&[u8]> = sets.iter().map(|set| &set[..]).collect();
        let whole = lists(bidders, slots, &sets);
        for (at, change) in CHANGES.into_iter().enumerate() {
            let constraints = changed(&mut random, bidders, slots, whole.clone(), change);
            let round = profile_round(&mut random, bidders, slots, constraints);
            let sheet = slow::sheet(&round);
            let (ours, mut theirs) = (factor(&sheet), 77);
            assert_eq!((engine::loss_bound(&sheet, &mut theirs), theirs), (0, ours), "{change:?}, {round:?}");
            assert_eq!(ours, slow::loss_factor(&round), "{change:?}, {round:?}");
            if matches!(change, Change::Nothing | Change::Shuffled | Change::Repeats) {
                let namers = (1..=64).map(|rival| sets.iter().filter(|set| set.contains(&rival)).count());
                let written = slots > 1;
                assert_eq!(ours as usize, 1 + if written { namers.max().expect("a rival") } else { 0 }, "{change:?}, {round:?}");
            }
            answers[at][usize::from(ours != 0)] += 1;
        }
    }
    let never = |change: Change| matches!(change, Change::Nothing | Change::Shuffled | Change::Repeats);
    for (change, [other, of_rivals]) in CHANGES.into_iter().zip(answers) {
        assert!(never(change) == (other == 0) && (never(change) || other > 2_000), "{change:?}: {answers:?}");
        assert!(
            of_rivals > 200 || matches!(change, Change::OwnSlot | Change::OtherSlot | Change::RivalBelow | Change::SameSlot),
            "{answers:?}"
        );
    }
}

#[test]
fn random_constraints_have_the_factor_of_their_sets() {
    use random::Manner::*;
    let (mut random, mut answers) = (Random::seeded(33), [0; 2]);
    for _ in 0..20_000 {
        let most = random.one_of(&[4, 30, 1024]);
        let (bidders, slots) = random_size(&mut random);
        let size = random::Size { bidders, slots, constraints: random.between(0, most) };
        let manner = random.one_of(&[Mixed, Pairs, OwnSlots, Exclusions, Chain, Rivals, RivalsShuffled, RivalsLacking]);
        let tick = tick(&mut random);
        let round = in_ticks(random::round(&mut random, size, manner, 9, 9), tick);
        let sheet = slow::sheet(&round);
        let (ours, mut theirs) = (factor(&sheet), 77);
        assert_eq!((engine::loss_bound(&sheet, &mut theirs), theirs), (0, ours), "{round:?}");
        assert_eq!(ours, slow::loss_factor(&round), "{round:?}");
        answers[usize::from(ours != 0)] += 1;
    }
    assert!(answers.iter().all(|&times| times > 2_000), "both answers come up: {answers:?}");
}

#[test]
fn so_many_times_the_played_total_is_at_least_that_of_every_page() {
    let (mut random, mut lost, mut factors) = (Random::seeded(34), [0; 3], BTreeSet::new());
    for _ in 0..30_000 {
        let (bidders, slots) = random_size(&mut random);
        let sets = random_sets(&mut random, bidders, slots);
        let sets: Vec<&[u8]> = sets.iter().map(|set| &set[..]).collect();
        let mut round = profile_round(&mut random, bidders, slots, lists(bidders, slots, &sets));
        if random.once_in(4) {
            round.effects = vec![round.effects[0]; slots];
        }
        let sheet = Sheet::from_bytes(&slow::sheet(&round)).expect("a good sheet");
        let factor = sheet.loss_bound().expect("lists that come from rivals");
        let (played, largest) = (played_total(&round, &sheet), slow::largest_total(&round));
        assert!(u64::from(factor) * played >= largest, "{factor} times {played} is below {largest}: {round:?}");
        if let Ok(best) = sheet.best_page() {
            assert!(best.total >= played && best.total <= largest, "{round:?}");
            lost[0] += usize::from(best.total > played);
        }
        lost[1] += usize::from(largest > played);
        lost[2] += usize::from(largest == u64::from(factor) * played && factor > 1 && played > 0);
        factors.insert(factor);
    }
    assert!(lost.iter().all(|&times| times > 50), "pages are below the best, and some are as far below as the bound says: {lost:?}");
    assert!(factors.len() > 40 && factors.contains(&64), "{factors:?}");
}

#[test]
fn on_small_rounds_no_page_is_above_the_bound_and_each_factor_is_met() {
    // All rounds of three bidders and three slots with bids 0 to 3 and some effects, by all rival sets: the bound on each, and which factors the best page meets.
    let subsets = |owner: u8| {
        let others: Vec<u8> = (1..=3).filter(|&other| other != owner).collect();
        (0..4usize).map(move |bits| others.iter().enumerate().filter(|(at, _)| bits >> at & 1 == 1).map(|(_, of)| *of).collect::<Vec<u8>>())
    };
    let mut met = BTreeSet::new();
    for one in subsets(1) {
        for two in subsets(2) {
            for three in subsets(3) {
                let constraints = lists(3, 3, &[&one, &two, &three]);
                for effects in [[1, 1, 1], [2, 1, 1], [3, 2, 1], [9, 3, 1], [3, 3, 1]] {
                    for bids in (0..64u32).map(|bits| [bits & 3, bits >> 2 & 3, bits >> 4]) {
                        let sheet = sheet(&bids, &effects, &constraints);
                        let factor = u64::from(sheet.loss_bound().expect("lists that come from rivals"));
                        let round = Round {
                            tick: None,
                            effects: effects.to_vec(),
                            bids: bids.to_vec(),
                            constraints: Vec::new(),
                            floors: Vec::new(),
                        };
                        let (played, largest) = (played_total(&round, &sheet), slow::largest_total(&round));
                        let best = sheet.best_page().expect("a small round").total;
                        assert!(best <= largest && largest <= factor * played, "{bids:?}, {effects:?}, {constraints:?}");
                        if played > 0 && best == factor * played {
                            met.insert(factor);
                        }
                    }
                }
            }
        }
    }
    assert_eq!(met, BTreeSet::from([1, 2, 3]), "each factor is met");
}

#[test]
fn no_smaller_factor_would_do() {
    // Bids and effects of 1, as many slots as bidders, and all others above bidder 1. With more than 12 others there is no room for the lists.
    for others in 1..=12usize {
        let bidders = others + 1;
        let constraints: Vec<Written> = (2..=bidders as u8).flat_map(|owner| above(bidders, bidders, owner, &[1])).collect();
        let sheet = sheet(&vec![1; bidders], &vec![1; bidders], &constraints);
        assert_eq!(sheet.loss_bound(), Some(bidders as u32));
        let mut alone = vec![0; bidders];
        alone[0] = 1;
        assert_eq!(numbers(&sheet.play().bidders()), alone, "total 1");
        // The page with bidder 1 last breaks nothing, and has total d + 1.
        let page: Vec<u8> = (2..=bidders as u8).chain([1]).collect();
        assert!(!constraints.iter().any(|&of| slow::is_broken(of, &page)));
        match sheet.best_page() {
            Ok(best) => assert_eq!((best.total, bidders <= 8), (bidders as u64, true)),
            Err(refusal) => assert_eq!((refusal, bidders <= 8), (Refusal::TooLargeForBest, false)),
        }
    }
}

#[test]
fn the_largest_product_fits_63_bits() {
    // 63 bidders above bidder 64 and two slots, and the largest bids and effects there are.
    let rivals: Vec<Written> = (1..=63).flat_map(|owner| above(64, 2, owner, &[64])).collect();
    let sheet = sheet(&[1_000_000_000; 64], &[1_000_000; 2], &rivals);
    assert_eq!(sheet.loss_bound(), Some(64));
    let most: i64 = 16 * 1_000_000_000 * 1_000_000;
    assert_eq!(most.checked_mul(64), Some(1_024_000_000_000_000_000));
}

/// A sheet of version 2 with tick 10 whose lists all come from rivals: 3 bidders, 3 slots, 6 constraints.
fn good() -> Vec<u8> {
    round(&[30, 20, 10], &[4, 2, 1], &lists(3, 3, &[&[2], &[3]])).tick(10).bytes()
}

/// A rule's number, and what makes the sheet break it. Effects are from byte 13 on, bids from 25, constraints from 37.
type Fault = (u32, fn(&mut Vec<u8>));

/// Faults for each rule, in the order of the rules.
const FAULTS: [Fault; 27] = [
    (1, |sheet| sheet.truncate(0)),
    (1, |sheet| sheet.truncate(8)),
    (2, |sheet| sheet[2] = b'T'),
    (3, |sheet| sheet[3] = 3),
    (1, |sheet| sheet.truncate(12)),
    (4, |sheet| sheet[5] = 0),
    (4, |sheet| sheet[5] = 65),
    (5, |sheet| sheet[6] = 0),
    (5, |sheet| sheet[6] = 17),
    (6, |sheet| sheet[7..9].copy_from_slice(&1025u16.to_le_bytes())),
    (26, |sheet| sheet[9..13].fill(0)),
    (26, |sheet| sheet[9..13].copy_from_slice(&1_000_000_001u32.to_le_bytes())),
    (7, |sheet| sheet.push(0)),
    (7, |sheet| sheet.truncate(60)),
    (8, |sheet| sheet[13..17].fill(0)),
    (8, |sheet| sheet[17] = 5),
    (9, |sheet| sheet[25..29].copy_from_slice(&1_000_000_010u32.to_le_bytes())),
    (27, |sheet| sheet[33] = 11),
    (10, |sheet| sheet[37] = 0),
    (10, |sheet| sheet[37] = 4),
    (10, |sheet| sheet[58] = 4),
    (11, |sheet| sheet[39] = 1),
    (12, |sheet| sheet[40] = 0),
    (12, |sheet| sheet[39] = 0),
    (13, |sheet| sheet[38..41].fill(0)),
    (28, |sheet| sheet.copy_within(37..41, 41)),
    (28, |sheet| sheet[37] = 3),
];

#[test]
fn every_number_of_the_check_is_given_and_the_factor_stays_as_it_was() {
    assert_eq!((good().len(), pas::loss_bound(&good())), (61, Ok(Some(2))));
    let mut seen = BTreeSet::new();
    for (at, (number, spoil)) in FAULTS.into_iter().enumerate() {
        for memory in [0, 1, 2, 77, u32::MAX] {
            let (mut sheet, mut factor) = (good(), memory);
            spoil(&mut sheet);
            assert_eq!((raw::loss_bound(&sheet, &mut factor), factor), (number, memory), "fault {at}");
            assert_eq!(raw::check(&sheet), number);
            assert_eq!(pas::loss_bound(&sheet), Err(Refusal::from_number(number).expect("a refusal's number")));
        }
        seen.insert(number);
    }
    assert_eq!(seen, (1..=13).chain(26..=28).collect());
}

#[test]
fn the_wrapper_has_no_factor_for_other_lists() {
    let plain = || SheetBuilder::new().effects([4, 2, 1]).bids([30, 20, 10]);
    let rivals = plain().above_terms(Bidder(1), [Bidder(2)]);
    assert_eq!(pas::loss_bound(&plain().bytes()), Ok(Some(1)));
    assert_eq!(written::in_ticks(10, &[30, 20, 10], &[4, 2, 1]).loss_bound(), Some(1));
    assert_eq!(pas::loss_bound(&rivals.bytes()), Ok(Some(2)));
    let limited = rivals.slot_terms(Bidder(3), pas::Slot(2), [0, 0, 0]);
    assert_eq!(pas::loss_bound(&limited.bytes()), Ok(None));
    assert_eq!(limited.build().expect("good terms").loss_bound(), None);
}

#[test]
fn all_sheets_of_one_round_have_one_factor() {
    let (mut random, mut answers) = (Random::seeded(35), [0; 2]);
    for _ in 0..4_000 {
        let (bidders, slots) = random_size(&mut random);
        let manner = random.one_of(&[random::Manner::Rivals, random::Manner::RivalsLacking, random::Manner::Pairs]);
        let size = random::Size { bidders, slots, constraints: random.between(0, 300) };
        let round = random::round(&mut random, size, manner, 9, 9);
        let sheet = Sheet::from_bytes(&slow::sheet(&round)).expect("a good sheet");
        let other = Sheet::from_bytes(&slow::sheet(&random::reshaped(&mut random, round))).expect("a good sheet");
        assert_eq!(sheet.loss_bound(), sheet.canonical().loss_bound());
        assert_eq!(sheet.loss_bound(), other.loss_bound());
        answers[usize::from(sheet.loss_bound().is_some())] += 1;
    }
    assert!(answers.iter().all(|&times| times > 500), "both answers come up: {answers:?}");
}
