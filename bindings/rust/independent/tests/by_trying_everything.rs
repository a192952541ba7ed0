//! The quick engine against the document tried word by word, on rounds small enough for that.

use independent::random::{
    disordered, floors, group, in_ticks, nearly, reshaped, rivals, rivals_of_size, round, spoiled, spoiled_group, spoiled_rivals, terms,
    terms_of_size, tick, with_repeats, Floors, Manner, Random, Sets, Size,
};
use independent::{engine, slow};

const MANNERS: [Manner; 6] = [Manner::Mixed, Manner::Pairs, Manner::OwnSlots, Manner::Exclusions, Manner::Chain, Manner::Ties];

fn small_round(random: &mut Random) -> slow::Round {
    let size = Size { bidders: random.between(1, 5), slots: random.between(1, 5), constraints: random.between(0, 30) };
    let manner = random.one_of(&MANNERS);
    let (tick, ticks) = (tick(random), random.one_of(&[1, 4, 15]));
    let highest_bid = (ticks * tick.unwrap_or(1) as usize).min(1_000_000_000);
    let highest_effect = random.one_of(&[1, 3, 20]);
    in_ticks(round(random, size, manner, highest_bid, highest_effect), tick)
}

/// The same, every other time with floors of some kind, for a call's second form.
fn small_round_perhaps_with_floors(random: &mut Random) -> slow::Round {
    let mut round = small_round(random);
    if random.once_in(2) {
        let kind = random.one_of(&Floors::ALL);
        round.floors = floors(random, &round, kind);
    }
    round
}

#[test]
fn pages_and_prices_are_those_of_replayed_rounds() {
    let mut random = Random::seeded(11);
    for _ in 0..10_000 {
        let round = small_round_perhaps_with_floors(&mut random);
        let (sheet, mut result) = (slow::sheet(&round), vec![0; 5 * round.effects.len()]);
        let number = match round.floors[..] {
            [] => engine::play(&sheet, &mut result),
            _ => engine::play_floors(&sheet, &round.floors, &mut result),
        };
        assert_eq!(number, 0);
        let page = slow::page(&round);
        for (slot, written) in result.chunks_exact(5).enumerate() {
            let price = u32::from_le_bytes([written[1], written[2], written[3], written[4]]);
            assert_eq!((written[0], price), (page[slot], slow::price(&round, slot)), "{round:?}");
        }
    }
}

#[test]
fn best_pages_are_the_first_of_all_pages_with_the_largest_total() {
    let mut random = Random::seeded(12);
    for _ in 0..6_000 {
        let round = small_round_perhaps_with_floors(&mut random);
        let (sheet, mut result, mut total) = (slow::sheet(&round), vec![0; round.effects.len()], 0);
        let number = match round.floors[..] {
            [] => engine::best(&sheet, &mut result, &mut total),
            _ => engine::best_floors(&sheet, &round.floors, &mut result, &mut total),
        };
        assert_eq!(number, 0);
        let best = slow::best_page(&round);
        assert_eq!((result, total), (best.clone(), slow::total(&round, &best)), "{round:?}");
    }
}

#[test]
fn lists_are_judged_by_the_definition() {
    let (mut random, mut answers) = (Random::seeded(13), [0; 2]);
    for _ in 0..20_000 {
        let round = small_round(&mut random);
        let bidder = random.byte(1, round.bids.len());
        let mut answer = 7;
        assert_eq!(engine::downward(&slow::sheet(&round), u32::from(bidder), &mut answer), 0);
        assert_eq!(answer == 1, slow::is_downward(&round, bidder), "{round:?}, {bidder}");
        answers[usize::from(answer)] += 1;
    }
    assert!(answers[0] > 1000 && answers[1] > 1000, "both answers come up: {answers:?}");
}

#[test]
fn gains_are_those_of_replayed_rounds() {
    let mut random = Random::seeded(14);
    for _ in 0..10_000 {
        let played = small_round_perhaps_with_floors(&mut random);
        let size = Size { bidders: played.bids.len(), slots: played.effects.len(), constraints: random.between(0, 20) };
        let truth = round(&mut random, size, Manner::Mixed, 9, 9);
        let (bidder, worth) = (random.byte(1, size.bidders), random.between(0, 20) as u32);
        let (sheet, true_sheet, number) = (slow::sheet(&played), slow::sheet(&truth), u32::from(bidder));
        let mut gain = 0;
        let refused = match played.floors[..] {
            [] => engine::gain(&sheet, &true_sheet, number, worth, &mut gain),
            _ => engine::gain_floors(&sheet, &played.floors, &true_sheet, number, worth, &mut gain),
        };
        assert_eq!(refused, 0);
        assert_eq!(gain, slow::gain(&played, &truth, bidder, worth), "{played:?}, {truth:?}, {bidder}");
    }
}

#[test]
fn an_order_is_judged_by_the_definition() {
    let (mut random, mut numbers) = (Random::seeded(15), [0; 2]);
    for _ in 0..20_000 {
        let round = small_round(&mut random);
        let round = disordered(&mut random, round);
        let refused = round.tick.is_some() && !slow::is_in_order(&round);
        assert_eq!(engine::check(&slow::sheet(&round)), if refused { 28 } else { 0 }, "{round:?}");
        numbers[usize::from(refused)] += 1;
    }
    assert!(numbers[0] > 1000 && numbers[1] > 1000, "both come up: {numbers:?}");
}

#[test]
fn parts_are_those_that_a_walk_through_the_sheet_finds() {
    let (mut random, mut empty) = (Random::seeded(16), [0; 2]);
    for _ in 0..10_000 {
        let round = small_round(&mut random);
        let sheet = slow::sheet(&round);
        for bidder in 1..=round.bids.len() as u8 {
            let (mut start, mut length) = (7, 7);
            let number = engine::owner_part(&sheet, u32::from(bidder), &mut start, &mut length);
            let expected = if round.tick.is_none() { (29, (7, 7)) } else { (0, slow::owner_part(&round, bidder)) };
            assert_eq!((number, (start, length)), expected, "{round:?}, {bidder}");
            empty[usize::from(number == 0 && length == 0)] += 1;
        }
    }
    assert!(empty[0] > 1000 && empty[1] > 1000, "empty ones come up too: {empty:?}");
}

/// What is written for a round that is in an accepted sheet.
fn written(round: &slow::Round) -> Vec<u8> {
    let sheet = slow::sheet(round);
    let (mut result, mut length) = (vec![0; sheet.len() + 4], 0);
    assert_eq!(engine::canonical(&sheet, &mut result, &mut length), 0, "{round:?}");
    result.truncate(length);
    result
}

#[test]
fn canonical_sheets_have_every_constraint_of_the_round_in_order() {
    let (mut random, mut shorter) = (Random::seeded(17), [0; 2]);
    for _ in 0..6_000 {
        let round = small_round(&mut random);
        let round = reshaped(&mut random, round);
        let canonical = slow::canonical(&round);
        assert!(slow::is_in_order(&canonical) && slow::same_round(&canonical, &round), "{round:?}");
        assert_eq!(written(&round), slow::sheet(&canonical), "{round:?}");
        assert_eq!(written(&canonical), slow::sheet(&canonical), "{round:?}");
        shorter[usize::from(canonical.constraints.len() < round.constraints.len())] += 1;
    }
    assert!(shorter.iter().all(|&times| times > 1000), "some have repeats and some have none: {shorter:?}");
}

#[test]
fn canonical_sheets_are_equal_exactly_where_rounds_are() {
    let (mut random, mut answers) = (Random::seeded(18), [0; 2]);
    for _ in 0..20_000 {
        let one = small_round(&mut random);
        let other = if random.once_in(3) { one.clone() } else { nearly(&mut random, one.clone()) };
        let (one, other) = (reshaped(&mut random, one), reshaped(&mut random, other));
        if engine::check(&slow::sheet(&other)) != 0 {
            continue;
        }
        let same = slow::same_round(&one, &other);
        assert_eq!(written(&one) == written(&other), same, "{one:?}, {other:?}");
        answers[usize::from(same)] += 1;
    }
    assert!(answers.iter().all(|&times| times > 1000), "both answers come up: {answers:?}");
}

/// Lends a buffer of so many sevens: the number, the buffer and the count, which is 77 before.
fn slot_terms(of: &slow::Terms, room: usize) -> (u32, Vec<u8>, u32) {
    let (mut result, mut count) = (vec![7; room], 77);
    let number = engine::slot_terms(of.bidders, of.slots, of.owner, of.limit, &of.bars, &mut result, &mut count);
    (number, result, count)
}

/// The same as the document has it.
fn slot_terms_by_trying(of: &slow::Terms, room: usize) -> (u32, Vec<u8>, u32) {
    let (number, mut result) = (slow::slot_terms_number(of, room), vec![7; room]);
    if number != 0 {
        return (number, result, 77);
    }
    let given = slow::slot_terms(of);
    result[..4 * given.len()].copy_from_slice(given.as_flattened());
    (0, result, given.len() as u32)
}

#[test]
fn terms_give_the_constraints_that_the_document_names() {
    let (mut random, mut numbers) = (Random::seeded(19), [0; 32]);
    for _ in 0..20_000 {
        let (bidders, slots) = (random.one_of(&[1, 2, 3, 5, 9, 64]), random.one_of(&[1, 2, 3, 5, 16]));
        let mut of = terms(&mut random, bidders, slots);
        for _ in 0..random.one_of(&[0, 0, 1, 2]) {
            of = spoiled(&mut random, of);
        }
        let needed = if slow::slot_terms_number(&of, usize::MAX) == 0 { 4 * slow::slot_terms(&of).len() } else { 0 };
        for room in [0, needed.saturating_sub(1), needed, needed + 9] {
            let answer = slot_terms(&of, room);
            assert_eq!(answer, slot_terms_by_trying(&of, room), "{of:?}, {room}");
            numbers[answer.0 as usize] += 1;
        }
    }
    assert!([0, 4, 5, 16, 19, 20, 21, 22].iter().all(|&number| numbers[number] > 500), "each number comes up: {numbers:?}");
}

#[test]
fn lists_of_terms_are_downward_monotonic_and_in_order() {
    let mut random = Random::seeded(20);
    for _ in 0..4_000 {
        let (bidders, slots) = (random.between(1, 9), random.between(1, 9));
        let of = terms(&mut random, bidders, slots);
        let round = round_with(bidders, slots, slow::slot_terms(&of));
        assert!(slow::is_in_order(&round) && slow::is_downward(&round, of.owner as u8), "{of:?}");
        assert_eq!(engine::check(&slow::sheet(&round)), 0, "{of:?}");
    }
}

#[test]
fn terms_of_a_size_give_so_many_constraints() {
    let mut random = Random::seeded(21);
    for (bidders, slots, constraints) in [(1, 1, 0), (1, 16, 15), (8, 4, 8), (8, 4, 31), (64, 16, 512), (64, 16, 1023)] {
        let of = terms_of_size(&mut random, Size { bidders, slots, constraints });
        assert_eq!(slow::slot_terms_number(&of, 4 * constraints), 0, "{of:?}");
        assert_eq!(slow::slot_terms(&of).len(), constraints, "{of:?}");
    }
}

/// Lends a buffer of so many sevens: the number, the buffer and the count, which is 77 before.
fn above_terms(of: &slow::Rivals, room: usize) -> (u32, Vec<u8>, u32) {
    let (mut result, mut count) = (vec![7; room], 77);
    let number = engine::above_terms(of.bidders, of.slots, of.owner, &of.rivals, &mut result, &mut count);
    (number, result, count)
}

/// The same as the document has it.
fn above_terms_by_trying(of: &slow::Rivals, room: usize) -> (u32, Vec<u8>, u32) {
    let (number, mut result) = (slow::above_terms_number(of, room), vec![7; room]);
    if number != 0 {
        return (number, result, 77);
    }
    let given = slow::above_terms(of);
    result[..4 * given.len()].copy_from_slice(given.as_flattened());
    (0, result, given.len() as u32)
}

#[test]
fn rivals_give_the_constraints_that_the_document_names() {
    let (mut random, mut numbers) = (Random::seeded(22), [0; 32]);
    for _ in 0..20_000 {
        let (bidders, slots) = (random.one_of(&[1, 2, 3, 5, 9, 64]), random.one_of(&[1, 2, 3, 5, 16]));
        let mut of = rivals(&mut random, bidders, slots);
        for _ in 0..random.one_of(&[0, 0, 1, 2]) {
            of = spoiled_rivals(&mut random, of);
        }
        let needed = if slow::above_terms_number(&of, usize::MAX) == 0 { 4 * slow::above_terms(&of).len() } else { 0 };
        for room in [0, needed.saturating_sub(1), needed, needed + 9] {
            let answer = above_terms(&of, room);
            assert_eq!(answer, above_terms_by_trying(&of, room), "{of:?}, {room}");
            numbers[answer.0 as usize] += 1;
        }
    }
    assert!([0, 4, 5, 16, 19, 23, 24, 25].iter().all(|&number| numbers[number] > 500), "each number comes up: {numbers:?}");
}

#[test]
fn lists_by_rivals_are_downward_monotonic_and_in_order() {
    let mut random = Random::seeded(23);
    for _ in 0..4_000 {
        let (bidders, slots) = (random.between(1, 9), random.between(1, 9));
        let of = rivals(&mut random, bidders, slots);
        let round = round_with(bidders, slots, slow::above_terms(&of));
        assert!(slow::is_in_order(&round) && slow::is_downward(&round, of.owner as u8), "{of:?}");
        assert_eq!(engine::check(&slow::sheet(&round)), 0, "{of:?}");
    }
}

/// A round of version 2 with these constraints, whose bids and effects do not matter.
fn round_with(bidders: usize, slots: usize, constraints: Vec<slow::Constraint>) -> slow::Round {
    slow::Round { tick: Some(1), effects: vec![1; slots], bids: vec![1; bidders], constraints, floors: Vec::new() }
}

#[test]
fn so_many_rivals_give_so_many_times_the_pairs_of_slots() {
    let mut random = Random::seeded(24);
    for (bidders, slots, count, constraints) in [(1, 16, 0, 0), (2, 1, 1, 0), (8, 8, 7, 196), (64, 2, 63, 63), (64, 13, 13, 1014)] {
        let of = rivals_of_size(&mut random, bidders, slots, count);
        assert_eq!(slow::above_terms_number(&of, 4 * constraints), 0, "{of:?}");
        assert_eq!(slow::above_terms(&of).len(), constraints, "{of:?}");
    }
}

/// Lends a buffer of so many sevens: the number, the buffer and the answer, which is 77 before.
fn share_page(of: &slow::Group, room: usize) -> (u32, Vec<u8>, u8) {
    let (mut result, mut answer) = (vec![7; room], 77);
    let number = engine::share_page(of.bidders, of.slots, &of.members, &of.rival_sets, &mut result, &mut answer);
    (number, result, answer)
}

/// The same as the document has it.
fn share_page_by_trying(of: &slow::Group, room: usize) -> (u32, Vec<u8>, u8) {
    let (number, mut result) = (slow::share_page_number(of, room), vec![7; room]);
    if number != 0 {
        return (number, result, 77);
    }
    let order = slow::shared_order(of);
    if let Some(order) = &order {
        result[..order.len()].copy_from_slice(order);
    }
    (0, result, u8::from(order.is_some()))
}

#[test]
fn members_share_a_page_in_the_first_of_all_their_orders_that_stands() {
    let (mut random, mut numbers, mut answers) = (Random::seeded(25), [0; 32], [[0; 7]; 2]);
    for _ in 0..20_000 {
        let bidders = random.one_of(&[1, 2, 3, 5, 6, 9, 64]);
        let (members, slots) = (random.between(0, bidders.min(6)), random.one_of(&[1, 2, 3, 5, 6, 16]));
        let kind = random.one_of(&Sets::ALL);
        let mut of = group(&mut random, bidders, slots, members, kind);
        of = with_repeats(&mut random, of);
        for _ in 0..random.one_of(&[0, 0, 1, 2]) {
            of = spoiled_group(&mut random, of);
        }
        let good = slow::share_page_number(&of, usize::MAX) == 0;
        let order = if good { slow::shared_order(&of) } else { None };
        let needed = order.as_ref().map_or(0, |order| order.len());
        for room in [0, needed.saturating_sub(1), needed, needed + 9] {
            let answer = share_page(&of, room);
            assert_eq!(answer, share_page_by_trying(&of, room), "{of:?}, {room}");
            numbers[answer.0 as usize] += 1;
        }
        if good && members <= slots {
            answers[usize::from(order.is_some())][members] += 1;
        }
    }
    assert!([0, 4, 5, 19, 23, 24].iter().all(|&number| numbers[number] > 500), "each number comes up: {numbers:?}");
    assert!(answers[1].iter().chain(&answers[0][2..]).all(|&times| times > 50), "both answers come up: {answers:?}");
}

#[test]
fn who_can_share_a_page_stands_on_one_and_who_cannot_stands_on_none() {
    let (mut random, mut answers) = (Random::seeded(26), [0; 2]);
    for _ in 0..6_000 {
        let (bidders, slots) = (random.between(1, 4), random.between(1, 4));
        let members = random.between(0, bidders);
        let kind = random.one_of(&Sets::ALL);
        let of = group(&mut random, bidders, slots, members, kind);
        let lists = (1..).zip(slow::rival_sets(&of).expect("a group that is right"));
        let list = |(owner, rivals)| slow::above_terms(&slow::Rivals { bidders: bidders as u32, slots: slots as u32, owner, rivals });
        let round = round_with(bidders, slots, lists.flat_map(list).collect());
        let order = slow::shared_order(&of);
        assert_eq!(order.is_some(), slow::can_stand_together(&round, &of.members), "{of:?}");
        if let Some(mut page) = order.clone() {
            page.resize(slots, 0);
            assert!(!round.constraints.iter().any(|&constraint| slow::is_broken(constraint, &page)), "{of:?}");
        }
        answers[usize::from(order.is_some())] += 1;
    }
    assert!(answers.iter().all(|&times| times > 1000), "both answers come up: {answers:?}");
}

/// Some rivals of the owner give its list, all sets of them being tried.
fn comes_from_rivals(round: &slow::Round, owner: u8) -> bool {
    let (bidders, slots) = (round.bids.len() as u8, round.effects.len() as u8);
    let list: Vec<slow::Constraint> = round.constraints.iter().copied().filter(|of| of[0] == owner).collect();
    (0..1u32 << bidders).filter(|set| set >> (owner - 1) & 1 == 0).any(|set| {
        let rivals = (1..=bidders).filter(|bidder| set >> (bidder - 1) & 1 == 1).collect();
        let of = slow::Rivals { bidders: u32::from(bidders), slots: u32::from(slots), owner: u32::from(owner), rivals };
        let written = slow::above_terms(&of);
        written.iter().all(|of| list.contains(of)) && list.iter().all(|of| written.contains(of))
    })
}

/// A small round, mostly one whose lists come from rivals, or nearly so.
fn small_round_of_rivals(random: &mut Random) -> slow::Round {
    let size = Size { bidders: random.between(1, 4), slots: random.between(1, 4), constraints: random.between(0, 40) };
    let manner = random.one_of(&[Manner::Rivals, Manner::RivalsShuffled, Manner::RivalsLacking, Manner::Chain, Manner::Pairs]);
    let tick = tick(random);
    let highest_bid = (4 * tick.unwrap_or(1) as usize).min(1_000_000_000);
    let highest_effect = random.one_of(&[1, 3, 20]);
    let round = in_ticks(round(random, size, manner, highest_bid, highest_effect), tick);
    if random.once_in(3) {
        nearly(random, round)
    } else {
        round
    }
}

#[test]
fn a_factor_is_given_where_all_lists_come_from_rivals_and_bounds_every_page() {
    let (mut random, mut answers, mut lost) = (Random::seeded(27), [0; 2], 0);
    for _ in 0..20_000 {
        let round = small_round_of_rivals(&mut random);
        let (sheet, mut factor) = (slow::sheet(&round), 77);
        if engine::check(&sheet) != 0 {
            assert_eq!((engine::loss_bound(&sheet, &mut factor), factor), (engine::check(&sheet), 77), "{round:?}");
            continue;
        }
        assert_eq!(engine::loss_bound(&sheet, &mut factor), 0);
        assert_eq!(factor, slow::loss_factor(&round), "{round:?}");
        let come = (1..=round.bids.len() as u8).all(|owner| comes_from_rivals(&round, owner));
        assert_eq!(factor != 0, come, "{round:?}");
        answers[usize::from(come)] += 1;
        if come {
            let (played, best) = (slow::total(&round, &slow::page(&round)), slow::total(&round, &slow::best_page(&round)));
            let largest = slow::largest_total(&round);
            assert!(best <= largest && largest <= u64::from(factor) * played, "{round:?}");
            lost += u32::from(played < best);
        }
    }
    assert!(answers.iter().all(|&times| times > 2000) && lost > 100, "both answers come up, and losses: {answers:?}, {lost}");
}

#[test]
fn no_page_has_a_larger_total_than_the_highest_bids_in_order() {
    let mut random = Random::seeded(28);
    for _ in 0..2_000 {
        let round = slow::Round { constraints: Vec::new(), ..small_round(&mut random) };
        assert_eq!(slow::total(&round, &slow::best_page(&round)), slow::largest_total(&round), "{round:?}");
    }
}
