//! The library and the independent engine must agree on every byte: numbers, answers, buffers with what lies behind the result, on
//! good sheets and on damaged ones. The seeds are fixed, so that a failure comes back.

use independent::random::{
    disordered, floors, group, in_ticks, nearly, reshaped, rivals, round, spoiled, spoiled_group, spoiled_rivals, terms, tick,
    with_repeats, Floors, Manner, Random, Sets, Size,
};
use independent::{engine, slow};
use pas::raw;
use std::collections::BTreeSet;

const MANNERS: [Manner; 6] = [Manner::Mixed, Manner::Pairs, Manner::OwnSlots, Manner::Exclusions, Manner::Chain, Manner::Ties];
const HIGHEST_BID: usize = 1_000_000_000;
const HIGHEST_EFFECT: usize = 1_000_000;

/// A size up to the given one: often small, where the edges are, and sometimes the largest.
fn size_up_to(random: &mut Random, most: Size) -> Size {
    let mut pick = |low: usize, high: usize| match random.between(0, 3) {
        0 => random.between(low, high.min(low + 3)),
        1 => high,
        _ => random.between(low, high),
    };
    Size { bidders: pick(1, most.bidders), slots: pick(1, most.slots), constraints: pick(0, most.constraints) }
}

fn random_round(random: &mut Random, most: Size) -> slow::Round {
    let size = size_up_to(random, most);
    let manner = random.one_of(&MANNERS);
    let highest_effect = random.one_of(&[1, 3, 1000, HIGHEST_EFFECT]);
    let (tick, highest_bid) = tick_and_highest_bid(random, &[1, 6, 1000, HIGHEST_BID]);
    in_ticks(round(random, size, manner, highest_bid, highest_effect), tick)
}

/// A tick, or none for version 1, and one of some highest bids, which are counted in ticks.
fn tick_and_highest_bid(random: &mut Random, in_ticks: &[usize]) -> (Option<u32>, usize) {
    let tick = tick(random);
    let highest_bid = random.one_of(in_ticks) * tick.unwrap_or(1) as usize;
    (tick, highest_bid.min(HIGHEST_BID))
}

/// One small change somewhere in the bytes. Often it makes the sheet refused, sometimes it is another good sheet.
fn damage(random: &mut Random, sheet: &mut Vec<u8>) {
    let last = sheet.len() - 1;
    let edges = [0, 1, 2, 15, 16, 17, 63, 64, 65, 127, 128, 255];
    match random.between(0, 9) {
        0 => sheet.truncate(random.between(0, last)),
        1 => sheet.extend(vec![random.byte(0, 255); random.between(1, 8)]),
        2 => sheet[random.between(0, last.min(8))] = random.one_of(&edges),
        3 => sheet[random.between(0, last.min(8))] ^= 1 << random.between(0, 7),
        4 => sheet[random.between(0, last)] ^= 1 << random.between(0, 7),
        5 => sheet.truncate(sheet.len() - sheet.len().min(4)),
        6 => sheet[last - random.between(0, last.min(11))] = random.one_of(&edges),
        7 => write_a_word(random, sheet),
        8 => sheet.truncate(random.between(8, 13)),
        _ => sheet[random.between(0, last)] = random.one_of(&edges),
    }
}

/// Writes a number at an edge of ticks, effects or bids into one of the first entries behind the counts.
fn write_a_word(random: &mut Random, sheet: &mut [u8]) {
    let entry = random.between(0, 4);
    let number: u32 = random.one_of(&[0, 1, 999_999, 1_000_000, 1_000_001, 1_000_000_000, 1_000_000_001, u32::MAX]);
    if let Some(place) = sheet.get_mut(9 + 4 * entry..13 + 4 * entry) {
        place.copy_from_slice(&number.to_le_bytes());
    }
}

/// A sheet that is good more than every other time: its constraints are in disorder one time in eight, which version 1 allows, and it is
/// damaged one time in three, once or twice.
fn random_sheet(random: &mut Random, most: Size) -> Vec<u8> {
    let round = random_round(random, most);
    sheet_of(random, round)
}

/// A round's sheet, in disorder and damaged as often.
fn sheet_of(random: &mut Random, mut round: slow::Round) -> Vec<u8> {
    if random.once_in(8) {
        round = disordered(random, round);
    }
    let mut sheet = slow::sheet(&round);
    if random.once_in(3) {
        damage(random, &mut sheet);
        if random.once_in(2) && !sheet.is_empty() {
            damage(random, &mut sheet);
        }
    }
    sheet
}

/// Floors of some kind for a round; one time in eight too few or too many, and one time in eight with one that is too high.
fn random_floors(random: &mut Random, round: &slow::Round) -> Vec<u32> {
    let kind = random.one_of(&Floors::ALL);
    let mut floors = floors(random, round, kind);
    if random.once_in(8) {
        let count = random.one_of(&[0, floors.len() - 1, floors.len() + 1, 17, 64]);
        floors.resize(count, 0);
    }
    if random.once_in(8) && !floors.is_empty() {
        let at = random.between(0, floors.len() - 1);
        floors[at] = random.one_of(&[1_000_000_001, 1 << 31, u32::MAX]);
    }
    floors
}

/// A sheet, good or damaged, and floors for the round that it was written from.
fn random_sheet_and_floors(random: &mut Random, most: Size) -> (Vec<u8>, Vec<u32>) {
    let round = random_round(random, most);
    let floors = random_floors(random, &round);
    (sheet_of(random, round), floors)
}

/// Bytes on both sides of a lent buffer that no call may touch.
const GUARD: usize = 8;

/// A lent buffer of random bytes, with its guards. Its length is around a length of interest.
fn lent_buffer(random: &mut Random, around: usize) -> Vec<u8> {
    let length = (around + random.between(0, 3)).saturating_sub(1);
    (0..length + 2 * GUARD).map(|_| random.byte(0, 255)).collect()
}

/// The part between the guards.
fn within(guarded: &mut [u8]) -> &mut [u8] {
    let end = guarded.len() - GUARD;
    &mut guarded[GUARD..end]
}

/// A bidder's number for a call: mostly in the sheet, sometimes just outside, sometimes one that is the same in its low byte.
fn bidder_number(random: &mut Random, sheet: &[u8]) -> u32 {
    let bidders = u32::from(*sheet.get(5).unwrap_or(&1));
    let inside = random.between(1, bidders.max(1) as usize) as u32;
    match random.between(0, 9) {
        0 => 0,
        1 => bidders + 1,
        2 => inside + 256,
        3 => inside + (1 << 31),
        _ => inside,
    }
}

fn worth(random: &mut Random) -> u32 {
    let any = random.between(0, HIGHEST_BID) as u32;
    random.one_of(&[0, 7, any, any, any, 1_000_000_000, 1_000_000_001, u32::MAX])
}

/// The numbers that were given, so that a test can say that it has seen what it is about.
#[derive(Default)]
struct Seen(BTreeSet<u32>);

impl Seen {
    fn add(&mut self, number: u32) {
        self.0.insert(number);
    }

    /// All numbers of a check have come up, and these of the call.
    fn all_of_a_sheet_and(&self, of_the_call: impl IntoIterator<Item = u32>) {
        for number in (0..=13).chain(26..=28).chain(of_the_call) {
            assert!(self.0.contains(&number), "no random call was answered {number}");
        }
    }
}

const WHOLE: Size = Size { bidders: 64, slots: 16, constraints: 1024 };
const SMALL: Size = Size { bidders: 9, slots: 9, constraints: 200 };

#[test]
fn both_give_every_sheet_the_same_number() {
    let (mut random, mut seen) = (Random::seeded(1), Seen::default());
    for _ in 0..40_000 {
        let most = random.one_of(&[WHOLE, SMALL, SMALL]);
        let sheet = random_sheet(&mut random, most);
        let number = engine::check(&sheet);
        assert_eq!(raw::check(&sheet), number, "{sheet:?}");
        seen.add(number);
    }
    seen.all_of_a_sheet_and([]);
}

#[test]
fn both_write_the_same_page_and_leave_the_same_bytes() {
    let (mut random, mut seen) = (Random::seeded(2), Seen::default());
    for _ in 0..40_000 {
        let most = random.one_of(&[WHOLE, SMALL, SMALL]);
        let sheet = random_sheet(&mut random, most);
        let needed = 5 * usize::from(*sheet.get(6).unwrap_or(&1));
        let lent = lent_buffer(&mut random, needed);
        let (mut ours, mut theirs) = (lent.clone(), lent.clone());
        let number = engine::play(&sheet, within(&mut theirs));
        assert_eq!(raw::play(&sheet, within(&mut ours)), number, "{sheet:?}");
        assert_eq!(ours, theirs, "{sheet:?}");
        assert!(number == 0 || ours == lent, "a refused call altered the buffer");
        seen.add(number);
    }
    seen.all_of_a_sheet_and([19]);
}

#[test]
fn both_judge_lists_alike() {
    let (mut random, mut seen, mut answers) = (Random::seeded(3), Seen::default(), [0; 2]);
    for _ in 0..40_000 {
        let most = random.one_of(&[WHOLE, SMALL, Size { bidders: 2, slots: 2, constraints: 12 }]);
        let sheet = random_sheet(&mut random, most);
        let bidder = bidder_number(&mut random, &sheet);
        let (mut ours, mut theirs) = (77, 77);
        let number = engine::downward(&sheet, bidder, &mut theirs);
        assert_eq!(raw::downward(&sheet, bidder, &mut ours), number, "{sheet:?}, {bidder}");
        assert_eq!(ours, theirs, "{sheet:?}, {bidder}");
        match number {
            0 => answers[usize::from(ours)] += 1,
            _ => assert_eq!(ours, 77, "a refused call altered the answer"),
        }
        seen.add(number);
    }
    seen.all_of_a_sheet_and([16]);
    assert!(answers[0] > 1000 && answers[1] > 1000, "both answers come up: {answers:?}");
}

/// A truth sheet for a played one: the same round with other constraints, or one with another tick as well, or damaged, or any other sheet.
fn truth_of(random: &mut Random, played: &slow::Round) -> Vec<u8> {
    let size = Size { bidders: played.bids.len(), slots: played.effects.len(), constraints: random.between(0, 40) };
    let mut truth = played.clone();
    truth.constraints = round(random, size, Manner::Mixed, 1, 1).constraints;
    let tick = if random.once_in(3) { tick(random) } else { played.tick };
    truth = in_ticks(truth, tick);
    match random.between(0, 6) {
        0 => {
            let mut sheet = slow::sheet(&truth);
            damage(random, &mut sheet);
            sheet
        }
        1 => random_sheet(random, SMALL),
        2 => slow::sheet(&disordered(random, truth)),
        _ => slow::sheet(&truth),
    }
}

#[test]
fn both_find_the_same_gain() {
    let (mut random, mut seen, mut signs) = (Random::seeded(4), Seen::default(), [0; 3]);
    for _ in 0..40_000 {
        let most = random.one_of(&[WHOLE, SMALL, SMALL]);
        let round = random_round(&mut random, most);
        let truth = truth_of(&mut random, &round);
        let mut played = slow::sheet(&round);
        if random.once_in(6) {
            damage(&mut random, &mut played);
        }
        let (bidder, worth) = (bidder_number(&mut random, &played), worth(&mut random));
        let (mut ours, mut theirs) = (77, 77);
        let number = engine::gain(&played, &truth, bidder, worth, &mut theirs);
        assert_eq!(raw::gain(&played, &truth, bidder, worth, &mut ours), number, "{played:?}, {truth:?}, {bidder}, {worth}");
        assert_eq!(ours, theirs, "{played:?}, {truth:?}, {bidder}, {worth}");
        match number {
            0 => signs[(ours.signum() + 1) as usize] += 1,
            _ => assert_eq!(ours, 77, "a refused call altered the gain"),
        }
        seen.add(number);
    }
    seen.all_of_a_sheet_and(14..=17);
    assert!(signs.iter().all(|&times| times > 1000), "losses, none and gains come up: {signs:?}");
}

#[test]
fn both_find_the_same_best_page() {
    let (mut random, mut seen) = (Random::seeded(5), Seen::default());
    for _ in 0..40_000 {
        let most =
            random.one_of(&[SMALL, Size { bidders: 8, slots: 8, constraints: 60 }, Size { bidders: 8, slots: 8, constraints: 1024 }]);
        let sheet = random_sheet(&mut random, most);
        let lent = lent_buffer(&mut random, usize::from(*sheet.get(6).unwrap_or(&1)));
        let (mut ours, mut theirs) = (lent.clone(), lent.clone());
        let (mut our_total, mut their_total) = (77, 77);
        let number = engine::best(&sheet, within(&mut theirs), &mut their_total);
        assert_eq!(raw::best(&sheet, within(&mut ours), &mut our_total), number, "{sheet:?}");
        assert_eq!((&ours, our_total), (&theirs, their_total), "{sheet:?}");
        assert!(number == 0 || (ours == lent && our_total == 77), "a refused call altered something lent");
        seen.add(number);
    }
    seen.all_of_a_sheet_and([18, 19]);
}

#[test]
fn both_find_every_owners_part() {
    let (mut random, mut seen, mut parts) = (Random::seeded(7), Seen::default(), [0; 3]);
    for _ in 0..20_000 {
        let most = random.one_of(&[WHOLE, SMALL, Size { bidders: 20, slots: 3, constraints: 12 }]);
        let sheet = random_sheet(&mut random, most);
        let bidders = u32::from(*sheet.get(5).unwrap_or(&1)).min(65);
        for bidder in (0..=bidders + 1).chain([bidder_number(&mut random, &sheet)]) {
            let (mut ours, mut theirs) = ((77, 78), (77, 78));
            let number = engine::owner_part(&sheet, bidder, &mut theirs.0, &mut theirs.1);
            assert_eq!(raw::owner_part(&sheet, bidder, &mut ours.0, &mut ours.1), number, "{sheet:?}, {bidder}");
            assert_eq!(ours, theirs, "{sheet:?}, {bidder}");
            match number {
                0 => parts[usize::from(ours.1 == 0) + usize::from(ours.0 == sheet.len())] += 1,
                _ => assert_eq!(ours, (77, 78), "a refused call altered something lent"),
            }
            seen.add(number);
        }
    }
    seen.all_of_a_sheet_and([16, 29]);
    assert!(parts.iter().all(|&times| times > 1000), "parts, empty ones and empty ones at the end come up: {parts:?}");
}

/// A sheet for the canonical form: one time in three in another shape first, shuffled and with repeats.
fn random_shape(random: &mut Random, most: Size) -> Vec<u8> {
    let mut round = random_round(random, most);
    if random.once_in(3) {
        round = reshaped(random, round);
    }
    sheet_of(random, round)
}

#[test]
fn both_write_the_same_canonical_sheet() {
    let (mut random, mut seen, mut sizes) = (Random::seeded(13), Seen::default(), [0; 3]);
    for _ in 0..40_000 {
        let most = random.one_of(&[WHOLE, SMALL, SMALL, Size { bidders: 2, slots: 2, constraints: 12 }]);
        let sheet = random_shape(&mut random, most);
        // Around the length that is written, which with repeats is less than the sheet's own and 4.
        let (mut form, mut length) = (vec![0; sheet.len() + 4], 0);
        engine::canonical(&sheet, &mut form, &mut length);
        let around = random.one_of(&[length, length, sheet.len(), sheet.len() + 4, 0]);
        let lent = lent_buffer(&mut random, around);
        let (mut ours, mut theirs, mut our_length, mut their_length) = (lent.clone(), lent.clone(), 77, 77);
        let number = engine::canonical(&sheet, within(&mut theirs), &mut their_length);
        assert_eq!(raw::canonical(&sheet, within(&mut ours), &mut our_length), number, "{sheet:?}");
        assert_eq!((&ours, our_length), (&theirs, their_length), "{sheet:?}");
        match number {
            0 => {
                assert!(our_length <= sheet.len() + 4 && ours[GUARD + our_length..] == lent[GUARD + our_length..], "{sheet:?}");
                sizes[(our_length.cmp(&sheet.len()) as i8 + 1) as usize] += 1;
            }
            _ => assert!(ours == lent && our_length == 77, "a refused call altered something lent"),
        }
        seen.add(number);
    }
    seen.all_of_a_sheet_and([19]);
    assert!(sizes.iter().all(|&times| times > 1000), "shorter, as long and longer forms come up: {sizes:?}");
}

#[test]
fn rounds_are_the_same_exactly_where_the_document_says_so() {
    let (mut random, mut seen, mut answers) = (Random::seeded(14), Seen::default(), [0; 2]);
    for _ in 0..40_000 {
        let most = random.one_of(&[WHOLE, SMALL, SMALL, Size { bidders: 2, slots: 2, constraints: 12 }]);
        let one = random_round(&mut random, most);
        let other = if random.once_in(3) { one.clone() } else { nearly(&mut random, one.clone()) };
        let (one, other) = (reshaped(&mut random, one), reshaped(&mut random, other));
        let (sheet, second) = (slow::sheet(&one), slow::sheet(&other));
        let same = pas::same_round(&sheet, &second);
        let number = engine::check(&second);
        match number {
            0 => {
                assert_eq!(same, Ok(slow::same_round(&one, &other)), "{one:?}, {other:?}");
                answers[usize::from(same == Ok(true))] += 1;
            }
            _ => assert_eq!(same.map_err(pas::Refusal::number), Err(number), "{one:?}, {other:?}"),
        }
        assert_eq!(pas::same_round(&second, &sheet), same);
        seen.add(number);
    }
    assert!(answers.iter().all(|&times| times > 5000), "both answers come up: {answers:?}");
    assert!([8, 9, 10, 27].iter().all(|number| seen.0.contains(number)), "and refused sheets: {:?}", seen.0);
}

#[test]
fn a_canonical_sheet_gets_the_answers_of_the_sheet() {
    let mut random = Random::seeded(15);
    for _ in 0..20_000 {
        let most = random.one_of(&[WHOLE, SMALL, SMALL]);
        let played = random_round(&mut random, most);
        let floors = random_floors(&mut random, &played);
        let (truth, played) = (truth_of(&mut random, &played), reshaped(&mut random, played));
        let sheet = slow::sheet(&played);
        let form = pas::canonical(&sheet).expect("a random round is a good sheet");
        let form = form.as_bytes();
        assert_eq!(pas::canonical(form).as_ref().map(pas::Sheet::as_bytes), Ok(form), "{sheet:?}");
        assert_eq!(pas::same_round(&sheet, form), Ok(true), "{sheet:?}");

        assert_eq!(pas::play(form), pas::play(&sheet), "{sheet:?}");
        assert_eq!(pas::play_floors(form, &floors), pas::play_floors(&sheet, &floors), "{sheet:?}, {floors:?}");
        assert_eq!(pas::best_page(form), pas::best_page(&sheet), "{sheet:?}");
        assert_eq!(pas::best_page_floors(form, &floors), pas::best_page_floors(&sheet, &floors), "{sheet:?}, {floors:?}");
        let (bidder, worth) = (bidder_number(&mut random, &sheet) as u8, worth(&mut random));
        let bidder = pas::Bidder(bidder);
        assert_eq!(pas::is_downward(form, bidder), pas::is_downward(&sheet, bidder), "{sheet:?}, {bidder:?}");
        let (gain, with_floors) = (pas::gain(&sheet, &truth, bidder, worth), pas::gain_floors(&sheet, &floors, &truth, bidder, worth));
        assert_eq!(pas::gain(form, &truth, bidder, worth), gain, "{sheet:?}, {truth:?}, {bidder:?}, {worth}");
        assert_eq!(
            pas::gain_floors(form, &floors, &truth, bidder, worth),
            with_floors,
            "{sheet:?}, {floors:?}, {truth:?}, {bidder:?}, {worth}"
        );
        // and as the truth sheet
        let (gain, with_floors) = (pas::gain(&truth, &sheet, bidder, worth), pas::gain_floors(&truth, &floors, &sheet, bidder, worth));
        assert_eq!(pas::gain(&truth, form, bidder, worth), gain, "{truth:?}, {sheet:?}, {bidder:?}, {worth}");
        assert_eq!(
            pas::gain_floors(&truth, &floors, form, bidder, worth),
            with_floors,
            "{truth:?}, {floors:?}, {sheet:?}, {bidder:?}, {worth}"
        );
    }
}

/// Top-of-page terms: right every other time, and else with one thing or two in them that are mostly wrong.
fn random_terms(random: &mut Random) -> slow::Terms {
    let most = random.one_of(&[WHOLE, SMALL, Size { bidders: 2, slots: 2, constraints: 0 }]);
    let size = if random.once_in(8) { WHOLE } else { size_up_to(random, most) };
    let mut terms = terms(random, size.bidders, size.slots);
    for _ in 0..random.one_of(&[0, 0, 1, 2]) {
        terms = spoiled(random, terms);
    }
    terms
}

#[test]
fn both_write_the_same_constraints_from_terms() {
    let (mut random, mut seen, mut sizes) = (Random::seeded(16), Seen::default(), [0; 3]);
    for _ in 0..60_000 {
        let of = random_terms(&mut random);
        let (mut room, mut count) = ([0; 4092], 0);
        engine::slot_terms(of.bidders, of.slots, of.owner, of.limit, &of.bars, &mut room, &mut count);
        let around = random.one_of(&[4 * count as usize, 4 * count as usize, 4092, 0]);
        let lent = lent_buffer(&mut random, around);
        let (mut ours, mut theirs, mut our_count, mut their_count) = (lent.clone(), lent.clone(), 77_777, 77_777);
        let number = engine::slot_terms(of.bidders, of.slots, of.owner, of.limit, &of.bars, within(&mut theirs), &mut their_count);
        let our_number = raw::slot_terms(of.bidders, of.slots, of.owner, of.limit, &of.bars, within(&mut ours), &mut our_count);
        assert_eq!((our_number, our_count), (number, their_count), "{of:?}");
        assert_eq!(ours, theirs, "{of:?}");
        assert_eq!(number, slow::slot_terms_number(&of, lent.len() - 2 * GUARD), "{of:?}");
        match number {
            0 => {
                let written = slow::slot_terms(&of);
                assert_eq!(
                    (our_count as usize, &ours[GUARD..GUARD + 4 * written.len()]),
                    (written.len(), written.as_flattened()),
                    "{of:?}"
                );
                sizes[usize::from(our_count > 0) + usize::from(our_count == 1023)] += 1;
            }
            _ => assert!(ours == lent && our_count == 77_777, "a refused call altered something lent"),
        }
        seen.add(number);
    }
    assert_eq!(seen.0, BTreeSet::from([0, 4, 5, 16, 19, 20, 21, 22]));
    assert!(sizes.iter().all(|&times| times > 100), "no constraints, some and the most come up: {sizes:?}");
}

#[test]
fn sheets_with_terms_are_accepted_and_the_list_is_downward_monotonic() {
    let (mut random, mut asking) = (Random::seeded(17), 0);
    for _ in 0..20_000 {
        let most = random.one_of(&[Size { constraints: 0, ..WHOLE }, SMALL, SMALL]);
        let mut round = random_round(&mut random, most);
        let of = terms(&mut random, round.bids.len(), round.effects.len());
        let owner = pas::Bidder(of.owner as u8);
        round.constraints.retain(|constraint| constraint[0] != owner.0);
        let others = pas::Sheet::from_bytes(&slow::sheet(&round)).expect("a good sheet").all_constraints();
        let written = slow::slot_terms(&of);
        round.constraints.extend(&written);
        if round.constraints.len() > 1024 {
            continue;
        }
        let (tick, limit) = (round.tick, pas::Slot(of.limit as u8));
        let round = in_ticks(round, tick);
        let mut builder = pas::SheetBuilder::new().constraints(others).slot_terms(owner, limit, of.bars.clone());
        builder = builder.effects(round.effects.iter().copied()).bids(round.bids.iter().copied());
        if let Some(tick) = tick {
            builder = builder.tick(tick);
        }
        let sheet = builder.build().expect("terms that are right, on a sheet that is");
        assert_eq!(sheet.as_bytes(), slow::sheet(&round), "{round:?}, {of:?}");
        assert_eq!(sheet.is_downward(owner), Ok(true), "{round:?}, {of:?}");
        assert_eq!(sheet.list_of(owner), pas::slot_terms(sheet.bidders(), sheet.slots(), owner, limit, &of.bars).expect("right terms"));
        asking += usize::from(!written.is_empty());
    }
    assert!(asking > 10_000, "most terms ask for something: {asking}");
}

/// A size for rivals or a group: one of the largest, a small one or a tiny one.
fn size_of_sets(random: &mut Random) -> Size {
    let most = random.one_of(&[WHOLE, SMALL, Size { bidders: 3, slots: 3, constraints: 0 }]);
    if random.once_in(8) {
        WHOLE
    } else {
        size_up_to(random, most)
    }
}

#[test]
fn both_write_the_same_constraints_from_rivals() {
    let (mut random, mut seen, mut sizes) = (Random::seeded(18), Seen::default(), [0; 3]);
    for _ in 0..60_000 {
        let size = size_of_sets(&mut random);
        let mut of = rivals(&mut random, size.bidders, size.slots);
        for _ in 0..random.one_of(&[0, 0, 1, 2]) {
            of = spoiled_rivals(&mut random, of);
        }
        let (mut room, mut count) = ([0; 4096], 0);
        engine::above_terms(of.bidders, of.slots, of.owner, &of.rivals, &mut room, &mut count);
        let around = random.one_of(&[4 * count as usize, 4 * count as usize, 4096, 0]);
        let lent = lent_buffer(&mut random, around);
        let (mut ours, mut theirs, mut our_count, mut their_count) = (lent.clone(), lent.clone(), 77_777, 77_777);
        let number = engine::above_terms(of.bidders, of.slots, of.owner, &of.rivals, within(&mut theirs), &mut their_count);
        let our_number = raw::above_terms(of.bidders, of.slots, of.owner, &of.rivals, within(&mut ours), &mut our_count);
        assert_eq!((our_number, our_count), (number, their_count), "{of:?}");
        assert_eq!(ours, theirs, "{of:?}");
        assert_eq!(number, slow::above_terms_number(&of, lent.len() - 2 * GUARD), "{of:?}");
        match number {
            0 => {
                let written = slow::above_terms(&of);
                assert_eq!(
                    (our_count as usize, &ours[GUARD..GUARD + 4 * written.len()]),
                    (written.len(), written.as_flattened()),
                    "{of:?}"
                );
                sizes[usize::from(our_count > 0) + usize::from(our_count > 500)] += 1;
            }
            _ => assert!(ours == lent && our_count == 77_777, "a refused call altered something lent"),
        }
        seen.add(number);
    }
    assert_eq!(seen.0, BTreeSet::from([0, 4, 5, 16, 19, 23, 24, 25]));
    assert!(sizes.iter().all(|&times| times > 100), "no constraints, some and many come up: {sizes:?}");
}

#[test]
fn sheets_by_rivals_are_accepted_and_the_lists_are_downward_monotonic() {
    let (mut random, mut asking) = (Random::seeded(19), 0);
    for _ in 0..20_000 {
        // Nine sets of eight rivals in five slots give 720 constraints at most.
        let mut round = random_round(&mut random, Size { bidders: 9, slots: 5, constraints: 0 });
        let size = Size { bidders: round.bids.len(), slots: round.effects.len(), constraints: 0 };
        let (effects, bids) = (round.effects.iter().copied(), round.bids.iter().copied());
        let mut builder = pas::SheetBuilder::new().effects(effects).bids(bids);
        for owner in 1..=size.bidders as u8 {
            let mut of = slow::Rivals { owner: u32::from(owner), ..rivals(&mut random, size.bidders, size.slots) };
            of.rivals.retain(|&rival| rival != owner);
            builder = builder.above_terms(pas::Bidder(owner), of.rivals.iter().copied().map(pas::Bidder));
            round.constraints.extend(slow::above_terms(&of));
        }
        if let Some(tick) = round.tick {
            builder = builder.tick(tick);
        }
        let sheet = builder.build().expect("rivals that are right, on a sheet that is");
        assert_eq!(sheet.as_bytes(), slow::sheet(&round), "{round:?}");
        for owner in 1..=size.bidders as u8 {
            assert_eq!(sheet.is_downward(pas::Bidder(owner)), Ok(true), "{round:?}, {owner}");
        }
        asking += usize::from(!round.constraints.is_empty());
    }
    assert!(asking > 10_000, "most rounds have constraints: {asking}");
}

/// Compares both engines on a group, with guards around a lent buffer, and gives the number and the answer.
fn both_share_alike(random: &mut Random, of: &slow::Group) -> (u32, u8) {
    let around = random.one_of(&[0, 1, of.members.len().min(16), 16]);
    let lent = lent_buffer(random, around);
    let (mut ours, mut theirs, mut our_answer, mut their_answer) = (lent.clone(), lent.clone(), 77, 77);
    let number = engine::share_page(of.bidders, of.slots, &of.members, &of.rival_sets, within(&mut theirs), &mut their_answer);
    let our_number = raw::share_page(of.bidders, of.slots, &of.members, &of.rival_sets, within(&mut ours), &mut our_answer);
    assert_eq!((our_number, our_answer), (number, their_answer), "{of:?}");
    assert_eq!(ours, theirs, "{of:?}");
    assert!(number == 0 || our_answer == 77, "a refused call altered the answer");
    assert!((number, our_answer) == (0, 1) || ours == lent, "a refused call or a no altered the buffer");
    (number, our_answer)
}

#[test]
fn both_share_the_same_pages() {
    let (mut random, mut seen, mut answers) = (Random::seeded(20), Seen::default(), [[0; 17]; 2]);
    for _ in 0..60_000 {
        let size = size_of_sets(&mut random);
        let any = random.between(0, size.bidders);
        let members = random.one_of(&[any, size.slots, size.slots, size.slots + 1, 2]).min(size.bidders);
        let kind = random.one_of(&Sets::ALL);
        let mut of = group(&mut random, size.bidders, size.slots, members, kind);
        if random.once_in(2) {
            of = with_repeats(&mut random, of);
        }
        for _ in 0..random.one_of(&[0, 0, 0, 1, 2]) {
            of = spoiled_group(&mut random, of);
        }
        let (number, answer) = both_share_alike(&mut random, &of);
        if number == 0 {
            answers[usize::from(answer)][members.min(16)] += 1;
        }
        seen.add(number);
    }
    assert_eq!(seen.0, BTreeSet::from([0, 4, 5, 19, 23, 24]));
    assert!(answers[1].iter().chain(&answers[0][2..]).all(|&times| times > 20), "both answers come up: {answers:?}");
}

#[test]
fn small_groups_share_pages_as_all_orders_tried_say() {
    let (mut random, mut numbers, mut answers) = (Random::seeded(21), [0; 32], [[0; 7]; 2]);
    for _ in 0..100_000 {
        let bidders = random.between(1, 8);
        let (members, slots) = (random.between(0, bidders.min(6)), random.one_of(&[1, 2, 3, 4, 5, 6, 6, 6, 16]));
        let kind = random.one_of(&[Sets::Any, Sets::Any, Sets::Few, Sets::Full, Sets::Circle]);
        let mut of = group(&mut random, bidders, slots, members, kind);
        if random.once_in(4) {
            of = with_repeats(&mut random, of);
        }
        if random.once_in(4) {
            of = spoiled_group(&mut random, of);
        }
        let room = random.one_of(&[0, members.saturating_sub(1), members, members, 16]);
        let (mut result, mut answer) = (vec![7; room], 77);
        let number = raw::share_page(of.bidders, of.slots, &of.members, &of.rival_sets, &mut result, &mut answer);
        assert_eq!(number, slow::share_page_number(&of, room), "{of:?}, {room}");
        let (mut expected, mut expected_answer) = (vec![7; room], 77);
        if number == 0 {
            let order = slow::shared_order(&of);
            expected_answer = u8::from(order.is_some());
            let order = order.unwrap_or_default();
            expected[..order.len()].copy_from_slice(&order);
            answers[usize::from(expected_answer)][members] += 1;
        }
        assert_eq!((result, answer), (expected, expected_answer), "{of:?}, {room}");
        numbers[number as usize] += 1;
    }
    assert!([0, 4, 5, 19, 23, 24].iter().all(|&number| numbers[number] > 500), "each number comes up: {numbers:?}");
    assert!(answers[1].iter().chain(&answers[0][2..]).all(|&times| times > 500), "both answers come up: {answers:?}");
}

#[test]
fn a_round_by_rivals_has_a_page_with_the_members_exactly_where_they_can_share_one() {
    let (mut random, mut answers) = (Random::seeded(22), [0; 2]);
    for _ in 0..10_000 {
        let (bidders, slots) = (random.between(1, 4), random.between(1, 4));
        let (members, kind) = (random.between(0, bidders), random.one_of(&Sets::ALL));
        let of = group(&mut random, bidders, slots, members, kind);
        let sets = slow::rival_sets(&of).expect("a group that is right");
        let mut builder = pas::SheetBuilder::new().effects(vec![1; slots]).bids(vec![1; bidders]);
        for (owner, set) in (1..).map(pas::Bidder).zip(&sets) {
            builder = builder.above_terms(owner, set.iter().copied().map(pas::Bidder));
        }
        let sheet = builder.build().expect("rivals that are right");
        let fields = sheet.as_bytes()[9 + 4 * (slots + bidders)..].chunks_exact(4);
        let constraints = fields.map(|field| [field[0], field[1], field[2], field[3]]).collect();
        let round = slow::Round { tick: None, effects: sheet.effects(), bids: sheet.bids(), constraints, floors: Vec::new() };
        let wanted: Vec<_> = of.members.iter().copied().map(pas::Bidder).collect();
        let order = pas::share_page(bidders, slots, &wanted, &of.rival_sets).expect("a group that is right");
        assert_eq!(order.is_some(), slow::can_stand_together(&round, &of.members), "{of:?}");
        if let Some(order) = &order {
            let mut page: Vec<u8> = order.iter().map(|bidder| bidder.0).collect();
            page.resize(slots, 0);
            assert!(!round.constraints.iter().any(|&constraint| slow::is_broken(constraint, &page)), "{of:?}");
        }
        answers[usize::from(order.is_some())] += 1;
    }
    assert!(answers.iter().all(|&times| times > 1000), "both answers come up: {answers:?}");
}

#[test]
fn both_write_the_same_page_with_floors() {
    let (mut random, mut seen, mut others) = (Random::seeded(8), Seen::default(), [0; 2]);
    for _ in 0..40_000 {
        let most = random.one_of(&[WHOLE, SMALL, SMALL]);
        let (sheet, floors) = random_sheet_and_floors(&mut random, most);
        let lent = lent_buffer(&mut random, 5 * usize::from(*sheet.get(6).unwrap_or(&1)));
        let (mut ours, mut theirs, mut without) = (lent.clone(), lent.clone(), lent.clone());
        let number = engine::play_floors(&sheet, &floors, within(&mut theirs));
        assert_eq!(raw::play_floors(&sheet, &floors, within(&mut ours)), number, "{sheet:?}, {floors:?}");
        assert_eq!(ours, theirs, "{sheet:?}, {floors:?}");
        assert!(number == 0 || ours == lent, "a refused call altered the buffer");
        if number == 0 {
            engine::play(&sheet, within(&mut without));
            others[usize::from(without != ours)] += 1;
        }
        seen.add(number);
    }
    seen.all_of_a_sheet_and([30, 31, 19]);
    assert!(others.iter().all(|&times| times > 1000), "pages or prices with floors are often others, and often not: {others:?}");
}

#[test]
fn both_find_the_same_gain_with_floors() {
    let (mut random, mut seen, mut signs) = (Random::seeded(9), Seen::default(), [0; 3]);
    for _ in 0..40_000 {
        let most = random.one_of(&[WHOLE, SMALL, SMALL]);
        let round = random_round(&mut random, most);
        let floors = random_floors(&mut random, &round);
        let truth = truth_of(&mut random, &round);
        let mut played = slow::sheet(&round);
        if random.once_in(6) {
            damage(&mut random, &mut played);
        }
        let (bidder, worth) = (bidder_number(&mut random, &played), worth(&mut random));
        let (mut ours, mut theirs) = (77, 77);
        let number = engine::gain_floors(&played, &floors, &truth, bidder, worth, &mut theirs);
        let our_number = raw::gain_floors(&played, &floors, &truth, bidder, worth, &mut ours);
        assert_eq!((our_number, ours), (number, theirs), "{played:?}, {floors:?}, {truth:?}, {bidder}, {worth}");
        match number {
            0 => signs[(ours.signum() + 1) as usize] += 1,
            _ => assert_eq!(ours, 77, "a refused call altered the gain"),
        }
        seen.add(number);
    }
    seen.all_of_a_sheet_and([30, 31].into_iter().chain(14..=17));
    assert!(signs.iter().all(|&times| times > 500), "losses, none and gains come up: {signs:?}");
}

#[test]
fn both_find_the_same_best_page_with_floors() {
    let (mut random, mut seen, mut others) = (Random::seeded(10), Seen::default(), [0; 2]);
    for _ in 0..40_000 {
        let most =
            random.one_of(&[SMALL, Size { bidders: 8, slots: 8, constraints: 60 }, Size { bidders: 8, slots: 8, constraints: 1024 }]);
        let (sheet, floors) = random_sheet_and_floors(&mut random, most);
        let lent = lent_buffer(&mut random, usize::from(*sheet.get(6).unwrap_or(&1)));
        let (mut ours, mut theirs, mut without) = (lent.clone(), lent.clone(), lent.clone());
        let (mut our_total, mut their_total) = (77, 77);
        let number = engine::best_floors(&sheet, &floors, within(&mut theirs), &mut their_total);
        assert_eq!(raw::best_floors(&sheet, &floors, within(&mut ours), &mut our_total), number, "{sheet:?}, {floors:?}");
        assert_eq!((&ours, our_total), (&theirs, their_total), "{sheet:?}, {floors:?}");
        assert!(number == 0 || (ours == lent && our_total == 77), "a refused call altered something lent");
        if number == 0 {
            engine::best(&sheet, within(&mut without), &mut their_total);
            others[usize::from(without != ours)] += 1;
        }
        seen.add(number);
    }
    seen.all_of_a_sheet_and([30, 31, 18, 19]);
    assert!(others.iter().all(|&times| times > 1000), "best pages with floors are often others, and often not: {others:?}");
}

#[test]
fn both_tell_the_same_factor() {
    let (mut random, mut seen, mut answers) = (Random::seeded(23), Seen::default(), [0; 2]);
    for _ in 0..40_000 {
        let most = random.one_of(&[WHOLE, SMALL, SMALL, Size { bidders: 3, slots: 2, constraints: 12 }]);
        let size = size_up_to(&mut random, most);
        let manner = random.one_of(&[Manner::Rivals, Manner::RivalsShuffled, Manner::RivalsLacking, Manner::Chain, Manner::Mixed]);
        let (tick, highest_bid) = tick_and_highest_bid(&mut random, &[1, 6, HIGHEST_BID]);
        let mut round = in_ticks(round(&mut random, size, manner, highest_bid, HIGHEST_EFFECT), tick);
        if random.once_in(3) {
            round = reshaped(&mut random, round);
        }
        let sheet = sheet_of(&mut random, round);
        let (mut ours, mut theirs) = (77, 77);
        let number = engine::loss_bound(&sheet, &mut theirs);
        assert_eq!((raw::loss_bound(&sheet, &mut ours), ours), (number, theirs), "{sheet:?}");
        match number {
            0 => answers[usize::from(ours != 0)] += 1,
            _ => assert_eq!(ours, 77, "a refused call altered the factor"),
        }
        seen.add(number);
    }
    seen.all_of_a_sheet_and([]);
    assert!(answers.iter().all(|&times| times > 5000), "both answers come up: {answers:?}");
}

#[test]
fn with_floors_of_0_each_call_answers_as_its_first_form() {
    let (mut random, mut seen) = (Random::seeded(11), [Seen::default(), Seen::default(), Seen::default()]);
    for _ in 0..20_000 {
        let most = random.one_of(&[WHOLE, SMALL, SMALL]);
        let round = random_round(&mut random, most);
        let truth = truth_of(&mut random, &round);
        let sheet = sheet_of(&mut random, round);
        let slots = usize::from(*sheet.get(6).unwrap_or(&1));
        let zeros = vec![0; slots];

        let lent = lent_buffer(&mut random, 5 * slots);
        let (mut first, mut second) = (lent.clone(), lent);
        let number = raw::play(&sheet, within(&mut first));
        assert_eq!((raw::play_floors(&sheet, &zeros, within(&mut second)), &second), (number, &first), "{sheet:?}");
        seen[0].add(number);

        let (bidder, worth, mut first, mut second) = (bidder_number(&mut random, &sheet), worth(&mut random), 77, 77);
        let number = raw::gain(&sheet, &truth, bidder, worth, &mut first);
        let again = raw::gain_floors(&sheet, &zeros, &truth, bidder, worth, &mut second);
        assert_eq!((again, second), (number, first), "{sheet:?}, {truth:?}, {bidder}, {worth}");
        seen[1].add(number);

        let lent = lent_buffer(&mut random, slots);
        let (mut first, mut second, mut first_total, mut second_total) = (lent.clone(), lent, 77, 77);
        let number = raw::best(&sheet, within(&mut first), &mut first_total);
        let again = raw::best_floors(&sheet, &zeros, within(&mut second), &mut second_total);
        assert_eq!((again, second, second_total), (number, first, first_total), "{sheet:?}");
        seen[2].add(number);
    }
    seen[0].all_of_a_sheet_and([19]);
    seen[1].all_of_a_sheet_and(14..=17);
    seen[2].all_of_a_sheet_and([18, 19]);
}

#[test]
fn the_library_keeps_to_the_document_tried_word_by_word() {
    let mut random = Random::seeded(6);
    for _ in 0..3_000 {
        let size = size_up_to(&mut random, Size { bidders: 5, slots: 4, constraints: 24 });
        let manner = random.one_of(&MANNERS);
        let (tick, highest_bid) = tick_and_highest_bid(&mut random, &[9]);
        let round = in_ticks(round(&mut random, size, manner, highest_bid, 4), tick);
        let sheet = pas::Sheet::from_bytes(&slow::sheet(&round)).expect("a random round is a good sheet");
        let number = |bidder: Option<pas::Bidder>| bidder.map_or(0, |bidder| bidder.0);
        let page = sheet.play();
        assert_eq!(page.bidders().into_iter().map(number).collect::<Vec<_>>(), slow::page(&round), "{round:?}");
        let prices: Vec<u32> = (0..size.slots).map(|slot| slow::price(&round, slot)).collect();
        assert_eq!(page.prices(), prices, "{round:?}");
        let best = sheet.best_page().expect("a small round");
        let slow_best = slow::best_page(&round);
        assert_eq!(best.total, slow::total(&round, &slow_best), "{round:?}");
        assert_eq!(best.bidders.into_iter().map(number).collect::<Vec<_>>(), slow_best, "{round:?}");
        for bidder in 1..=size.bidders as u8 {
            assert_eq!(sheet.is_downward(pas::Bidder(bidder)), Ok(slow::is_downward(&round, bidder)), "{round:?}");
            assert_eq!(sheet.gain(&sheet, pas::Bidder(bidder), 9), Ok(slow::gain(&round, &round, bidder, 9)), "{round:?}");
            let part = sheet.owner_part(pas::Bidder(bidder)).map(|part| (part.start(), part.as_bytes().len()));
            let expected = tick.map(|_| slow::owner_part(&round, bidder)).ok_or(pas::Refusal::UnorderedVersion);
            assert_eq!(part, expected, "{round:?}");
        }
        assert_eq!(sheet.canonical().as_bytes(), slow::sheet(&slow::canonical(&round)), "{round:?}");
        assert_eq!(sheet.loss_bound().unwrap_or(0), slow::loss_factor(&round), "{round:?}");
    }
}

#[test]
fn with_floors_the_library_keeps_to_the_document_tried_word_by_word() {
    let mut random = Random::seeded(12);
    for _ in 0..6_000 {
        let size = size_up_to(&mut random, Size { bidders: 5, slots: 4, constraints: 24 });
        let (manner, kind) = (random.one_of(&MANNERS), random.one_of(&Floors::ALL));
        let (tick, highest_bid) = tick_and_highest_bid(&mut random, &[9]);
        let mut round = in_ticks(round(&mut random, size, manner, highest_bid, 4), tick);
        round.floors = floors(&mut random, &round, kind);
        let sheet = pas::Sheet::from_bytes(&slow::sheet(&round)).expect("a random round is a good sheet");
        let number = |bidder: Option<pas::Bidder>| bidder.map_or(0, |bidder| bidder.0);
        let page = sheet.play_floors(&round.floors).expect("a floor for each slot");
        assert_eq!(page.bidders().into_iter().map(number).collect::<Vec<_>>(), slow::page(&round), "{round:?}");
        let prices: Vec<u32> = (0..size.slots).map(|slot| slow::price(&round, slot)).collect();
        assert_eq!(page.prices(), prices, "{round:?}");
        let best = sheet.best_page_floors(&round.floors).expect("a small round");
        let slow_best = slow::best_page(&round);
        assert_eq!(best.total, slow::total(&round, &slow_best), "{round:?}");
        assert_eq!(best.bidders.into_iter().map(number).collect::<Vec<_>>(), slow_best, "{round:?}");
        for bidder in 1..=size.bidders as u8 {
            let gain = sheet.gain_floors(&round.floors, &sheet, pas::Bidder(bidder), 9);
            assert_eq!(gain, Ok(slow::gain(&round, &round, bidder, 9)), "{round:?}");
        }
    }
}
