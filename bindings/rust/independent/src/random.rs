//! Random numbers from a fixed seed, random rounds of several kinds and of both versions, random top-of-page terms and random sets of rivals. The same seed
//! gives the same of each on every machine.

use crate::read::{LARGEST_BID, MOST_CONSTRAINTS};
use crate::slow::{self, Constraint, Group, Rivals, Round, Terms};

/// A generator of 64-bit numbers (SplitMix64).
pub struct Random(u64);

impl Random {
    /// The generator of a seed.
    pub fn seeded(seed: u64) -> Random {
        Random(seed)
    }

    /// The next number.
    pub fn number(&mut self) -> u64 {
        self.0 = self.0.wrapping_add(0x9e37_79b9_7f4a_7c15);
        let mixed = (self.0 ^ self.0 >> 30).wrapping_mul(0xbf58_476d_1ce4_e5b9);
        let mixed = (mixed ^ mixed >> 27).wrapping_mul(0x94d0_49bb_1331_11eb);
        mixed ^ mixed >> 31
    }

    /// A number from `low` to `high`, both included.
    pub fn between(&mut self, low: usize, high: usize) -> usize {
        low + (self.number() % (high - low + 1) as u64) as usize
    }

    /// The same for a byte.
    pub fn byte(&mut self, low: usize, high: usize) -> u8 {
        u8::try_from(self.between(low, high)).expect("a byte's range")
    }

    /// True once in so many times.
    pub fn once_in(&mut self, times: usize) -> bool {
        self.between(1, times) == 1
    }

    /// One of a list.
    pub fn one_of<T: Copy>(&mut self, list: &[T]) -> T {
        list[self.between(0, list.len() - 1)]
    }

    /// Puts a list into any order.
    pub fn shuffle<T>(&mut self, list: &mut [T]) {
        for last in (1..list.len()).rev() {
            list.swap(last, self.between(0, last));
        }
    }
}

/// What the constraints of a round are like.
#[derive(Clone, Copy, Debug, PartialEq)]
pub enum Manner {
    /// All three kinds, mixed.
    Mixed,
    /// Pairs of bidder and slot.
    Pairs,
    /// Bidders that refuse a slot.
    OwnSlots,
    /// Bidders that refuse to stand with another, wherever that one is.
    Exclusions,
    /// Bidder 1 above 2, 2 above 3 and so on, with rising bids, as in round H.
    Chain,
    /// As exclusions, with equal bids and equal effects: many pages have the same total, and a bound rules out few.
    Ties,
    /// Whole lists of bidders that stand only above rivals, as many as fit, in order.
    Rivals,
    /// The same in any order.
    RivalsShuffled,
    /// The same, but that one constraint is missing and another stands twice.
    RivalsLacking,
}

impl Manner {
    /// The manner in words, for a table.
    pub fn name(self) -> &'static str {
        match self {
            Manner::Mixed => "mixed",
            Manner::Pairs => "pairs",
            Manner::OwnSlots => "own places",
            Manner::Exclusions => "exclusions",
            Manner::Chain => "chain",
            Manner::Ties => "ties",
            Manner::Rivals => "rivals",
            Manner::RivalsShuffled => "shuffled",
            Manner::RivalsLacking => "lacking",
        }
    }
}

/// The size of a round: bidders, slots and constraints.
#[derive(Clone, Copy, Debug, PartialEq)]
pub struct Size {
    /// n of document 01.
    pub bidders: usize,
    /// m of document 01.
    pub slots: usize,
    /// c of document 01.
    pub constraints: usize,
}

/// A random round of a size, in version 1. Bids go up to `highest_bid`, effects up to `highest_effect`.
pub fn round(random: &mut Random, size: Size, manner: Manner, highest_bid: usize, highest_effect: usize) -> Round {
    let mut effects: Vec<u32> = (0..size.slots).map(|_| random.between(1, highest_effect) as u32).collect();
    effects.sort_unstable_by(|one, other| other.cmp(one));
    let mut bids: Vec<u32> = (0..size.bidders).map(|_| random.between(0, highest_bid) as u32).collect();
    match manner {
        Manner::Chain => bids.sort_unstable(),
        Manner::Ties => {
            effects = vec![effects[0]; size.slots];
            bids = vec![bids[0]; size.bidders];
        }
        _ => {}
    }
    Round { tick: None, effects, bids, constraints: constraints(random, size, manner), floors: Vec::new() }
}

/// What the floors of a round are like.
#[derive(Clone, Copy, Debug, PartialEq)]
pub enum Floors {
    /// All 0.
    Zero,
    /// Anything from 0 to the highest bid, in any order.
    Any,
    /// The same, none below the one before it.
    Rising,
    /// The same, none above the one before it.
    Falling,
    /// Each a bid, or one below or above it.
    NearBids,
    /// No multiples of the tick, where it is not 1.
    OffTick,
    /// Above every bid, where that is below the largest.
    Above,
}

impl Floors {
    /// All kinds.
    pub const ALL: [Floors; 7] =
        [Floors::Zero, Floors::Any, Floors::Rising, Floors::Falling, Floors::NearBids, Floors::OffTick, Floors::Above];
}

/// Floors for a round, one for each slot.
pub fn floors(random: &mut Random, round: &Round, floors: Floors) -> Vec<u32> {
    let highest = round.bids.iter().fold(0, |highest, &bid| highest.max(bid));
    let step = round.tick.unwrap_or(1);
    let mut drawn: Vec<u32> = round.effects.iter().map(|_| random.between(0, highest as usize) as u32).collect();
    match floors {
        Floors::Zero => drawn.fill(0),
        Floors::Any => {}
        Floors::Rising => drawn.sort_unstable(),
        Floors::Falling => drawn.sort_unstable_by(|one, other| other.cmp(one)),
        Floors::NearBids => drawn.fill_with(|| near_a_bid(random, round)),
        Floors::OffTick => drawn.iter_mut().for_each(|floor| *floor = off_tick(random, *floor, step)),
        Floors::Above => drawn.fill((highest + 1).min(LARGEST_BID)),
    }
    drawn
}

/// A bid, or the number just below or above it that a floor may be.
fn near_a_bid(random: &mut Random, round: &Round) -> u32 {
    let raised = random.one_of(&round.bids) + random.between(0, 2) as u32;
    raised.saturating_sub(1).min(LARGEST_BID)
}

/// A floor within a tick of another that is no multiple of the tick; where every number is one, that other itself.
fn off_tick(random: &mut Random, floor: u32, tick: u32) -> u32 {
    let multiple = floor - floor % tick;
    match (tick - 1).min(LARGEST_BID - multiple) {
        _ if tick == 1 => floor,
        0 => multiple - 1,
        room => multiple + random.between(1, room as usize) as u32,
    }
}

/// A tick for a round: none in one time of three, which is version 1, else 1, small, any or the largest.
pub fn tick(random: &mut Random) -> Option<u32> {
    let ticks = [1, random.between(2, 9), random.between(2, LARGEST_BID as usize), LARGEST_BID as usize];
    (!random.once_in(3)).then_some(random.one_of(&ticks) as u32)
}

/// The same round with a tick: each bid is moved to the nearest multiple that a sheet accepts, so that bids stay in their order, and the
/// constraints are put in order, each once. Without a tick it is the round as it was.
pub fn in_ticks(mut round: Round, tick: Option<u32>) -> Round {
    round.tick = tick;
    if tick.is_some() {
        put_in_order(&mut round.constraints);
    }
    let step = tick.unwrap_or(1);
    for bid in &mut round.bids {
        let nearest = (*bid + step / 2) / step;
        *bid = step * nearest.min(LARGEST_BID / step);
    }
    round
}

/// Constraints as version 2 has them.
fn put_in_order(constraints: &mut Vec<Constraint>) {
    constraints.sort_unstable();
    constraints.dedup();
}

/// The same round with its constraints in disorder: two that stand in a row are exchanged, or one is repeated, right after itself or
/// anywhere. Without two constraints it is the round as it was.
pub fn disordered(random: &mut Random, mut round: Round) -> Round {
    let all = &mut round.constraints;
    if all.len() < 2 {
        return round;
    }
    let at = random.between(0, all.len() - 2);
    match random.between(0, 2) {
        0 => all.swap(at, at + 1),
        1 => all[at + 1] = all[at],
        _ => all[at] = all[random.between(0, all.len() - 1)],
    }
    round
}

/// The same round in another shape. In version 1 the constraints are shuffled, and up to three times as many repeats of them, or none, are added, as
/// far as there is room; with tick 1 it may be of either version. In version 2 with another tick there is no other shape.
pub fn reshaped(random: &mut Random, mut round: Round) -> Round {
    let tick = round.tick.unwrap_or(1);
    let all = &mut round.constraints;
    put_in_order(all);
    if tick != 1 || random.once_in(4) {
        round.tick = Some(tick);
        return round;
    }
    round.tick = None;
    let more = if all.is_empty() || random.once_in(3) { 0 } else { random.between(1, 3 * all.len()).min(MOST_CONSTRAINTS - all.len()) };
    for _ in 0..more {
        let again = random.one_of(all);
        all.push(again);
    }
    random.shuffle(all);
    round
}

/// A round that is nearly the same: a bid, an effect, the tick or a constraint is another one, or there is a constraint more or one less. Now and then
/// the sheet of it is refused, and now and then it is the same round after all.
pub fn nearly(random: &mut Random, mut round: Round) -> Round {
    let size = Size { bidders: round.bids.len(), slots: round.effects.len(), constraints: 1 };
    let step = round.tick.unwrap_or(1);
    let (bid, effect) = (random.between(0, size.bidders - 1), random.between(0, size.slots - 1));
    let change = random.between(0, 5);
    match change {
        0 if round.bids[bid] < step || random.once_in(2) => round.bids[bid] += step,
        0 => round.bids[bid] -= step,
        1 if random.once_in(2) => round.effects[effect] += 1,
        1 => round.effects[effect] -= 1,
        2 => round.tick = Some(random.one_of(&[1, 2, step + 1, 2 * step])),
        3 | 4 if !round.constraints.is_empty() => {
            let gone = random.one_of(&round.constraints);
            round.constraints.retain(|&of| of != gone);
            if change == 4 {
                round.constraints.push(near(random, gone));
            }
        }
        _ => round.constraints.extend(constraints(random, size, Manner::Mixed)),
    }
    round.constraints.truncate(MOST_CONSTRAINTS);
    if round.tick.is_some() {
        put_in_order(&mut round.constraints);
    }
    round
}

/// A constraint with one of its numbers one more or less.
fn near(random: &mut Random, mut constraint: Constraint) -> Constraint {
    let number = &mut constraint[random.between(0, 3)];
    *number = if random.once_in(2) { *number + 1 } else { number.saturating_sub(1) };
    constraint
}

/// Top-of-page terms of some bidder, for so many bidders and slots: often the limit is the first slot or the last, and often most bars are 0, or all are as
/// high as they may be.
pub fn terms(random: &mut Random, bidders: usize, slots: usize) -> Terms {
    let owner = random.between(1, bidders);
    let any = random.between(1, slots);
    let limit = random.one_of(&[1, slots, any, any]);
    let (least, most, times) = random.one_of(&[(0, slots, 1), (0, slots, 4), (slots, slots, 1), (0, 0, 1), (0, slots.min(2), 1)]);
    let mut bars: Vec<u8> = (0..bidders).map(|_| if random.once_in(times) { random.byte(least, most) } else { 0 }).collect();
    bars[owner - 1] = 0;
    Terms { bidders: bidders as u32, slots: slots as u32, owner: owner as u32, limit: limit as u32, bars }
}

/// Terms that give just so many constraints, spread over the limit and the bars.
pub fn terms_of_size(random: &mut Random, size: Size) -> Terms {
    let mut terms = Terms { limit: size.slots as u32, ..terms(random, size.bidders, size.slots) };
    terms.bars.fill(0);
    let mut missing = size.constraints;
    while missing > 0 {
        // The owner stands for its limit: it has no bar.
        let bidder = random.between(1, size.bidders);
        let bar = &mut terms.bars[bidder - 1];
        if bidder == terms.owner as usize {
            if terms.limit > 1 {
                terms.limit -= 1;
                missing -= 1;
            }
        } else if usize::from(*bar) < size.slots {
            *bar += 1;
            missing -= 1;
        }
    }
    terms
}

/// The same terms with one thing in them another one, mostly so that they are turned away: a number at an edge, or one that is the same in its low byte, or a
/// bar too few, too many, too high or against the owner.
pub fn spoiled(random: &mut Random, mut terms: Terms) -> Terms {
    match random.between(0, 7) {
        0 => terms.bidders = at_an_edge(random, terms.bidders, 64),
        1 => terms.slots = at_an_edge(random, terms.slots, 16),
        2 => terms.owner = at_an_edge(random, terms.owner, terms.bidders),
        3 => terms.limit = at_an_edge(random, terms.limit, terms.slots),
        4 => {
            let count = random.one_of(&[0, terms.bars.len().saturating_sub(1), terms.bars.len() + 1, terms.bars.len() + 256, 64]);
            terms.bars.resize(count, 0);
        }
        5 if !terms.bars.is_empty() => {
            let at = random.between(0, terms.bars.len() - 1);
            terms.bars[at] = random.one_of(&[terms.slots as u8, (terms.slots as u8).wrapping_add(1), 16, 17, 128, 255]);
        }
        _ => {
            let highest = terms.slots.clamp(1, 16) as u8;
            if let Some(bar) = terms.bars.get_mut((terms.owner as usize).wrapping_sub(1)) {
                *bar = random.one_of(&[1, highest, highest + 1]);
            }
        }
    }
    terms
}

/// A number at an edge of its range, or one that is the same in its low byte as a right one.
fn at_an_edge(random: &mut Random, right: u32, most: u32) -> u32 {
    random.one_of(&[0, most, most.wrapping_add(1), 255, right.wrapping_add(256), right.wrapping_add(1 << 16), right | 1 << 31, u32::MAX])
}

/// Bidders of some, each once, in any order: all of them, or every other one, or fewer.
fn some_of(random: &mut Random, bidders: impl Iterator<Item = u8>) -> Vec<u8> {
    let times = random.one_of(&[1, 2, 4, 16]);
    let mut some: Vec<u8> = bidders.filter(|_| random.once_in(times)).collect();
    random.shuffle(&mut some);
    some
}

/// Every other time repeats are put into a list of bidders, anywhere, mostly a few and at times so many that it has just so many numbers.
fn repeat(random: &mut Random, list: &mut Vec<u8>, most: usize) {
    if list.is_empty() || list.len() >= most || random.once_in(2) {
        return;
    }
    let more = if random.once_in(8) { most - list.len() } else { random.between(1, 4.min(most - list.len())) };
    for _ in 0..more {
        let again = random.one_of(list);
        list.insert(random.between(0, list.len()), again);
    }
}

/// Rivals of some bidder, for so many bidders and slots: none, few, half or all of the others, in any order, often with repeats, and then also more than 255 numbers.
pub fn rivals(random: &mut Random, bidders: usize, slots: usize) -> Rivals {
    let owner = random.byte(1, bidders);
    let mut rivals = some_of(random, (1..=bidders as u8).filter(|&rival| rival != owner));
    repeat(random, &mut rivals, 300);
    Rivals { bidders: bidders as u32, slots: slots as u32, owner: u32::from(owner), rivals }
}

/// So many rivals of some bidder, each once, for so many bidders and slots.
pub fn rivals_of_size(random: &mut Random, bidders: usize, slots: usize, count: usize) -> Rivals {
    let mut all: Vec<u8> = (1..=bidders as u8).collect();
    random.shuffle(&mut all);
    Rivals { bidders: bidders as u32, slots: slots as u32, owner: u32::from(all[0]), rivals: all[1..=count].to_vec() }
}

/// The same rivals with one thing another one, mostly so that they are turned away: a number at an edge, or one that is the same in its low byte, or a rival that
/// is none or the owner.
pub fn spoiled_rivals(random: &mut Random, mut of: Rivals) -> Rivals {
    let at = random.between(0, of.rivals.len());
    match random.between(0, 4) {
        0 => of.bidders = at_an_edge(random, of.bidders, 64),
        1 => of.slots = at_an_edge(random, of.slots, 16),
        2 => of.owner = at_an_edge(random, of.owner, of.bidders),
        3 => of.rivals.insert(at, wrong_bidder(random, of.bidders)),
        _ => of.rivals.insert(at, of.owner as u8),
    }
    of
}

/// A bidder that is mostly none of so many.
fn wrong_bidder(random: &mut Random, bidders: u32) -> u8 {
    random.one_of(&[0, bidders as u8, (bidders as u8).wrapping_add(1), 64, 65, 128, 255])
}

/// What the rival sets of a group are like.
#[derive(Clone, Copy, Debug, PartialEq)]
pub enum Sets {
    /// Each bidder names whom it likes.
    Any,
    /// Nobody names anyone.
    Empty,
    /// Each names at most three of those that come after it in some order, so that all can stand in that order.
    Few,
    /// Each names as many as it can while the members can still stand in some order.
    Full,
    /// The same, with repeats up to 255 numbers.
    Longest,
    /// As few, but that the last two members of the order name each other.
    Circle,
}

impl Sets {
    /// All kinds.
    pub const ALL: [Sets; 6] = [Sets::Any, Sets::Empty, Sets::Few, Sets::Full, Sets::Longest, Sets::Circle];

    /// The kind in words, for a table.
    pub fn name(self) -> &'static str {
        match self {
            Sets::Any => "any sets",
            Sets::Empty => "empty sets",
            Sets::Few => "small sets",
            Sets::Full => "full sets",
            Sets::Longest => "longest",
            Sets::Circle => "circle",
        }
    }
}

/// A group of so many members, for so many bidders and slots, none of whom is named twice but in the longest sets.
pub fn group(random: &mut Random, bidders: usize, slots: usize, members: usize, kind: Sets) -> Group {
    // The order in which the members stand, then all others.
    let mut order: Vec<u8> = (1..=bidders as u8).collect();
    random.shuffle(&mut order);
    let mut sets = vec![Vec::new(); bidders];
    for (at, &bidder) in order.iter().enumerate() {
        let set = &mut sets[usize::from(bidder) - 1];
        match kind {
            Sets::Any => *set = some_of(random, (1..=bidders as u8).filter(|&rival| rival != bidder)),
            Sets::Empty => {}
            Sets::Few | Sets::Circle => {
                *set = order[at + 1..].to_vec();
                random.shuffle(set);
                set.truncate(3);
            }
            Sets::Full | Sets::Longest => {
                // Whom one names that is no member does not matter.
                let first = if at < members { at + 1 } else { 0 };
                *set = order[first..].iter().copied().filter(|&rival| rival != bidder).collect();
                random.shuffle(set);
            }
        }
        if kind == Sets::Longest && !set.is_empty() {
            *set = set.iter().copied().cycle().take(255).collect();
        }
    }
    let mut members = order[..members].to_vec();
    if let (Sets::Circle, [.., upper, lower]) = (kind, &members[..]) {
        for (bidder, rival) in [(upper, lower), (lower, upper)] {
            let set = &mut sets[usize::from(*bidder) - 1];
            if !set.contains(rival) {
                set.push(*rival);
            }
        }
    }
    random.shuffle(&mut members);
    Group { bidders: bidders as u32, slots: slots as u32, members, rival_sets: slow::lent_sets(&sets) }
}

/// The same group with repeats here and there, in the members and in the rival sets.
pub fn with_repeats(random: &mut Random, mut of: Group) -> Group {
    repeat(random, &mut of.members, 300);
    let mut sets = slow::rival_sets(&of).expect("a group that is right");
    for set in &mut sets {
        repeat(random, set, 255);
    }
    Group { rival_sets: slow::lent_sets(&sets), ..of }
}

/// The same group with one thing another one, mostly so that it is turned away: a number at an edge, or one that is the same in its low byte, a member or a rival
/// that is none, a bidder in its own set, or bytes that are not the sets of all bidders.
pub fn spoiled_group(random: &mut Random, mut of: Group) -> Group {
    let end = of.rival_sets.len();
    let bytes = &mut of.rival_sets;
    match random.between(0, 8) {
        0 => of.bidders = at_an_edge(random, of.bidders, 64),
        1 => of.slots = at_an_edge(random, of.slots, 16),
        2 => of.members.insert(random.between(0, of.members.len()), wrong_bidder(random, of.bidders)),
        3 if end > 0 => bytes[random.between(0, end - 1)] = wrong_bidder(random, of.bidders),
        4 if end > 0 => bytes.truncate(random.between(0, end - 1)),
        5 => bytes.extend(vec![random.one_of(&[0, 1, 255]); random.between(1, 3)]),
        6 if end > 0 => {
            let byte = &mut bytes[random.between(0, end - 1)];
            *byte = if random.once_in(2) { byte.wrapping_add(1) } else { byte.wrapping_sub(1) };
        }
        _ => {
            let Some(mut sets) = slow::rival_sets(&of) else { return of };
            let bidder = random.between(1, sets.len().max(1));
            if let Some(set) = sets.get_mut(bidder - 1).filter(|set| set.len() < 255) {
                set.insert(random.between(0, set.len()), bidder as u8);
            }
            of.rival_sets = slow::lent_sets(&sets);
        }
    }
    of
}

fn constraints(random: &mut Random, size: Size, manner: Manner) -> Vec<Constraint> {
    let count = size.constraints;
    // With one bidder there is no other to name.
    let manner = if size.bidders == 1 { Manner::OwnSlots } else { manner };
    match manner {
        Manner::Exclusions | Manner::Ties => {
            let pairs = std::iter::repeat_with(|| exclusion(random, size));
            pairs.flatten().take(count).collect()
        }
        // In one slot nobody is above another, and the chain has no constraint.
        Manner::Chain if size.slots > 1 => chain(size).into_iter().cycle().take(count).collect(),
        Manner::Rivals | Manner::RivalsShuffled | Manner::RivalsLacking => whole_lists(random, size, manner),
        _ => (0..count).map(|_| constraint(random, size, manner)).collect(),
    }
}

/// Lists that all come from rivals, of some bidders who name some others, with no more constraints than are asked for; one of them taken for another where they
/// are to be lacking.
fn whole_lists(random: &mut Random, size: Size, manner: Manner) -> Vec<Constraint> {
    let bidders = 1..=size.bidders as u8;
    let mut names: Vec<(u8, u8)> = bidders.clone().flat_map(|owner| bidders.clone().map(move |rival| (owner, rival))).collect();
    names.retain(|(owner, rival)| owner != rival);
    random.shuffle(&mut names);
    names.truncate(size.constraints / (size.slots * (size.slots - 1) / 2).max(1));
    let slots = 1..=size.slots as u8;
    let pairs = |(owner, rival)| slots.clone().flat_map(move |own| (1..own).map(move |slot| [owner, own, rival, slot]));
    let mut lists: Vec<Constraint> = names.into_iter().flat_map(pairs).collect();
    match manner {
        Manner::Rivals => put_in_order(&mut lists),
        _ => random.shuffle(&mut lists),
    }
    if let (Manner::RivalsLacking, [missing, twice, ..]) = (manner, &mut lists[..]) {
        *missing = *twice;
        random.shuffle(&mut lists);
    }
    lists
}

fn constraint(random: &mut Random, size: Size, manner: Manner) -> Constraint {
    let owner = random.byte(1, size.bidders);
    let own = random.byte(1, size.slots);
    if manner == Manner::OwnSlots {
        return [owner, own, 0, 0];
    }
    let pair = [owner, own, other_than(random, owner, size), random.byte(1, size.slots)];
    match manner {
        Manner::Pairs => pair,
        _ => random.one_of(&[pair, [owner, 0, pair[2], pair[3]], [owner, own, 0, 0]]),
    }
}

fn other_than(random: &mut Random, owner: u8, size: Size) -> u8 {
    let other = random.byte(1, size.bidders - 1);
    other + u8::from(other >= owner)
}

/// One bidder bars another from every slot.
fn exclusion(random: &mut Random, size: Size) -> Vec<Constraint> {
    let owner = random.byte(1, size.bidders);
    let other = other_than(random, owner, size);
    (1..=size.slots as u8).map(|slot| [owner, 0, other, slot]).collect()
}

/// The constraints of "1 above 2, 2 above 3 ..": whoever is named first may not stand below the second.
fn chain(size: Size) -> Vec<Constraint> {
    let mut chain = Vec::new();
    for owner in 1..size.bidders as u8 {
        for own in 2..=size.slots as u8 {
            chain.extend((1..own).map(|above| [owner, own, owner + 1, above]));
        }
    }
    chain
}
