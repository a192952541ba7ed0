//! Document 01 word by word, with the top-of-page terms, the rival sets, the ticks, the owner order, the canonical sheet, the floors and the loss of document 02, by
//! trying everything: the measure for `engine`, which is quick and so needs one.
//!
//! Rounds must be small: a price is found by replaying the round with bid 0, one tick, two ticks and so on, the best page by going
//! through every page, and the order in which members share a page by going through all their orders.

use crate::read::LARGEST_BID;
use std::collections::BTreeSet;

/// A condition as document 01 writes it: owner, own place, other bidder, other's place.
pub type Constraint = [u8; 4];

/// A round as it stands in an accepted sheet, and the floors that a call lends beside the sheet.
#[derive(Clone, Debug, PartialEq)]
pub struct Round {
    /// What version 2 writes after the counts; none in version 1: "version 1 means tick 1".
    pub tick: Option<u32>,
    /// By slot, the first at 0.
    pub effects: Vec<u32>,
    /// By bidder, the first at 0.
    pub bids: Vec<u32>,
    /// In sheet order.
    pub constraints: Vec<Constraint>,
    /// By slot, the first at 0; empty for a call that takes none.
    pub floors: Vec<u32>,
}

/// "A bid at or above its floor", of a bidder for a slot, the first at 0.
fn reaches_floor(round: &Round, slot: usize, bidder: u8) -> bool {
    round.floors.is_empty() || round.bids[usize::from(bidder) - 1] >= round.floors[slot]
}

/// "In strictly rising order of owner, own place, other bidder, other's place": every constraint is above all that stand before it.
pub fn is_in_order(round: &Round) -> bool {
    let all = &round.constraints;
    (0..all.len()).all(|at| all[..at].iter().all(|before| before < &all[at]))
}

/// "The part of the sheet with one bidder's conditions, which is empty if it has none and then stands just before the first higher owner's, or at
/// the sheet's end": where it starts and how long it is.
pub fn owner_part(round: &Round, bidder: u8) -> (usize, usize) {
    let sheet = sheet(round);
    let all = &round.constraints;
    let at = |position: usize| sheet.len() - 4 * (all.len() - position);
    let owned = all.iter().filter(|of| of[0] == bidder).count();
    let first = all.iter().position(|of| of[0] == bidder);
    let higher = all.iter().position(|of| of[0] > bidder);
    (first.or(higher).map_or(sheet.len(), at), 4 * owned)
}

/// "Version 2, with the conditions in order and repeats dropped": every condition that could be is asked for in order, and those that the round has are
/// taken; "version 1 means tick 1".
pub fn canonical(round: &Round) -> Round {
    let (bidders, slots) = (0..=round.bids.len() as u8, 0..=round.effects.len() as u8);
    let others = || bidders.clone().flat_map(|other| slots.clone().map(move |slot| (other, slot)));
    let mut constraints = Vec::new();
    for owner in bidders.clone() {
        for own in slots.clone() {
            let all = others().map(|(other, slot)| [owner, own, other, slot]);
            constraints.extend(all.filter(|of| round.constraints.contains(of)));
        }
    }
    Round { tick: Some(round.tick.unwrap_or(1)), constraints, ..round.clone() }
}

/// "n, m, tick, effects, bids and the sets of conditions are equal."
pub fn same_round(one: &Round, other: &Round) -> bool {
    let within = |inner: &Round, outer: &Round| inner.constraints.iter().all(|of| outer.constraints.contains(of));
    one.bids == other.bids
        && one.effects == other.effects
        && one.tick.unwrap_or(1) == other.tick.unwrap_or(1)
        && within(one, other)
        && within(other, one)
}

/// "n, m, an owner, its own limit and a bar for each bidder", as a call has them: right or wrong.
#[derive(Clone, Debug, PartialEq)]
pub struct Terms {
    /// n of document 02.
    pub bidders: u32,
    /// m of document 02.
    pub slots: u32,
    /// Whose terms they are.
    pub owner: u32,
    /// "The lowest place they accept".
    pub limit: u32,
    /// "For each rival how many top places it must not have", by bidder, the first at 0.
    pub bars: Vec<u8>,
}

/// "That owner's conditions in rising order of their four bytes", of terms that are not turned away: every condition that the owner could have is asked for in
/// order, and those that the terms give are taken.
pub fn slot_terms(terms: &Terms) -> Vec<Constraint> {
    let (bidders, slots) = (0..=terms.bidders as u8, 0..=terms.slots as u8);
    let mut given = Vec::new();
    for own in slots.clone() {
        for other in bidders.clone() {
            for slot in slots.clone() {
                // "A limit L gives own-place conditions for places L + 1 to m."
                let by_limit = u32::from(own) > terms.limit && (other, slot) == (0, 0);
                // "A bar B gives other's-place conditions for places 1 to B."
                let by_bar = own == 0 && other > 0 && slot > 0 && slot <= terms.bars[usize::from(other) - 1];
                if by_limit || by_bar {
                    given.push([terms.owner as u8, own, other, slot]);
                }
            }
        }
    }
    given
}

/// "Turned away: after 4, 5 and 16, 20 for a limit of 0 or above m, 21 for a list of bars not n long or a bar above m, 22 for a bar other than 0 against
/// the owner, and then 19", for a buffer of so many bytes; or 0.
pub fn slot_terms_number(terms: &Terms, room: usize) -> u32 {
    let wrong = |number: u32, most: u32| !(1..=most).contains(&number);
    let own_bar = terms.bars.get((terms.owner as usize).wrapping_sub(1));
    let bars_fit = terms.bars.len() as u64 == u64::from(terms.bidders) && terms.bars.iter().all(|&bar| u32::from(bar) <= terms.slots);
    let number = first_number(&[
        (4, wrong(terms.bidders, 64)),
        (5, wrong(terms.slots, 16)),
        (16, wrong(terms.owner, terms.bidders)),
        (20, wrong(terms.limit, terms.slots)),
        (21, !bars_fit),
        (22, own_bar.is_some_and(|&bar| bar != 0)),
    ]);
    if number != 0 {
        return number;
    }
    first_number(&[(19, room < 4 * slot_terms(terms).len())])
}

/// "A set of rivals" of an owner, as a call has them: right or wrong.
#[derive(Clone, Debug, PartialEq)]
pub struct Rivals {
    /// n of document 02.
    pub bidders: u32,
    /// m of document 02.
    pub slots: u32,
    /// Who wants to stand above them.
    pub owner: u32,
    /// "A list of bidder numbers in which a repeat counts once".
    pub rivals: Vec<u8>,
}

/// "For each rival, all pairs in which the rival's place is above the owner's", of rivals that are not turned away: every condition that the owner could have is
/// asked for in order, and those that the rivals give are taken.
pub fn above_terms(of: &Rivals) -> Vec<Constraint> {
    let mut given = Vec::new();
    for own in 1..=of.slots as u8 {
        for other in (1..=of.bidders as u8).filter(|other| of.rivals.contains(other)) {
            let above = (1..=of.slots as u8).filter(|&slot| slot < own);
            given.extend(above.map(|slot| [of.owner as u8, own, other, slot]));
        }
    }
    given
}

/// "A number 0 or above n" is in the set.
fn has_a_wrong_number(set: &[u8], bidders: u32) -> bool {
    set.iter().any(|&bidder| !(1..=bidders).contains(&u32::from(bidder)))
}

/// The first number that applies, or 0.
fn first_number(turned_away: &[(u32, bool)]) -> u32 {
    turned_away.iter().find(|(_, applies)| *applies).map_or(0, |(number, _)| *number)
}

/// "After 4, 5 and 16, 23 … for any set with a number 0 or above n, 24 for an owner in its own set, 25 … for more than 1,024 of them, and then 19", for a
/// buffer of so many bytes; or 0.
pub fn above_terms_number(of: &Rivals, room: usize) -> u32 {
    let wrong = |number: u32, most: u32| !(1..=most).contains(&number);
    let number = first_number(&[
        (4, wrong(of.bidders, 64)),
        (5, wrong(of.slots, 16)),
        (16, wrong(of.owner, of.bidders)),
        (23, has_a_wrong_number(&of.rivals, of.bidders)),
        (24, of.rivals.iter().any(|&rival| u32::from(rival) == of.owner)),
    ]);
    if number != 0 {
        return number;
    }
    let constraints = above_terms(of).len();
    first_number(&[(25, constraints > 1024), (19, room < 4 * constraints)])
}

/// "A given set of bidders, with one rival set for each of the n bidders", as a call has them: right or wrong.
#[derive(Clone, Debug, PartialEq)]
pub struct Group {
    /// n of document 02.
    pub bidders: u32,
    /// m of document 02.
    pub slots: u32,
    /// Who wants to share a page.
    pub members: Vec<u8>,
    /// "Lent one after another from bidder 1's, each with its length in one byte before it".
    pub rival_sets: Vec<u8>,
}

/// Rival sets, one after another from bidder 1's, each with its length in one byte before it. Sets too long for that are not for this function.
pub fn lent_sets(sets: &[Vec<u8>]) -> Vec<u8> {
    let lent = |set: &Vec<u8>| [&[u8::try_from(set.len()).expect("a byte holds the length")], &set[..]].concat();
    sets.iter().flat_map(lent).collect()
}

/// The rival sets by bidder, the first at 0; none where the "bytes are not exactly n sets".
pub fn rival_sets(of: &Group) -> Option<Vec<Vec<u8>>> {
    let (mut sets, mut rest) = (Vec::new(), &of.rival_sets[..]);
    for _ in 0..of.bidders {
        let length = usize::from(*rest.first()?);
        sets.push(rest.get(1..=length)?.to_vec());
        rest = &rest[1 + length..];
    }
    rest.is_empty().then_some(sets)
}

/// "The first such order in dictionary order" of a group that is not turned away, or none, which is a no: all orders of the members are tried.
pub fn shared_order(of: &Group) -> Option<Vec<u8>> {
    let members: Vec<u8> = (1..=of.bidders as u8).filter(|bidder| of.members.contains(bidder)).collect();
    let sets = rival_sets(of).expect("the sets of all bidders");
    // "At most m members."
    if members.len() > of.slots as usize {
        return None;
    }
    // "Puts each above every rival of its own in the set": nobody stands above one that has it for a rival.
    let names = |bidder: u8, other: u8| sets[usize::from(bidder) - 1].contains(&other);
    let stands = |order: &[u8]| order.iter().enumerate().all(|(at, &lower)| !order[..at].iter().any(|&upper| names(lower, upper)));
    first_order(&members, &mut Vec::new(), &stands)
}

/// The first order of all members, in dictionary order, that begins as given and passes.
fn first_order(members: &[u8], begun: &mut Vec<u8>, passes: &impl Fn(&[u8]) -> bool) -> Option<Vec<u8>> {
    if begun.len() == members.len() {
        return passes(begun).then(|| begun.clone());
    }
    for &next in members {
        if !begun.contains(&next) {
            begun.push(next);
            let found = first_order(members, begun, passes);
            begun.pop();
            if found.is_some() {
                return found;
            }
        }
    }
    None
}

/// "After 4, 5 … 23 for rival sets whose bytes are not exactly n sets or for any set with a number 0 or above n, 24 for an owner in its own set … and then
/// 19", for a buffer of so many bytes; or 0. A no writes nothing, and so needs no room.
pub fn share_page_number(of: &Group, room: usize) -> u32 {
    let wrong = |number: u32, most: u32| !(1..=most).contains(&number);
    let number = first_number(&[(4, wrong(of.bidders, 64)), (5, wrong(of.slots, 16)), (23, has_a_wrong_number(&of.members, of.bidders))]);
    if number != 0 {
        return number;
    }
    let Some(sets) = rival_sets(of) else { return 23 };
    let number = first_number(&[
        (23, sets.iter().any(|set| has_a_wrong_number(set, of.bidders))),
        (24, (1..).zip(&sets).any(|(bidder, set)| set.contains(&bidder))),
    ]);
    if number != 0 {
        return number;
    }
    let written = shared_order(of).map_or(0, |order| order.len());
    first_number(&[(19, room < written)])
}

/// Some page of the round breaks no condition and has all these members, with others or without: every page is looked at.
pub fn can_stand_together(round: &Round, members: &[u8]) -> bool {
    let mut found = false;
    every_page(round, &mut Page::new(), &mut |page| {
        let all = members.iter().all(|member| page.contains(member));
        found |= all && !round.constraints.iter().any(|&of| is_broken(of, page));
    });
    found
}

/// What the list of each bidder is, from bidder 1's on, as a set of conditions.
fn list_sets(round: &Round) -> Vec<BTreeSet<Constraint>> {
    let list = |owner: u8| round.constraints.iter().copied().filter(|of| of[0] == owner).collect();
    (1..=round.bids.len() as u8).map(list).collect()
}

/// The other bidders of a list's conditions, also 0 where a condition has none.
fn named(list: &BTreeSet<Constraint>) -> Vec<u8> {
    list.iter().map(|of| of[2]).collect::<BTreeSet<u8>>().into_iter().collect()
}

/// How many times the greedy page's total is at least that of every page, where the "lists all come from the profile": written from the rivals that it names, each
/// is the set of conditions that it is. It is one more than "the largest number of bidders that name one same rival"; 0 where some list does not come from it.
pub fn loss_factor(round: &Round) -> u32 {
    let (bidders, slots, lists) = (round.bids.len() as u32, round.effects.len() as u32, list_sets(round));
    let rivals: Vec<Vec<u8>> = lists.iter().map(named).collect();
    let written = |(owner, rivals)| BTreeSet::from_iter(above_terms(&Rivals { bidders, slots, owner, rivals }));
    if !(1..).zip(rivals.clone()).map(written).eq(lists) {
        return 0;
    }
    let namers = |rival: u8| rivals.iter().filter(|rivals| rivals.contains(&rival)).count();
    1 + (1..=bidders as u8).map(namers).max().unwrap_or(0) as u32
}

/// The largest total that any page has, whatever it breaks: the highest bids on the first places.
pub fn largest_total(round: &Round) -> u64 {
    let mut bids = round.bids.clone();
    bids.sort_unstable_by(|one, other| other.cmp(one));
    bids.iter().zip(&round.effects).map(|(&bid, &effect)| u64::from(bid) * u64::from(effect)).sum()
}

/// The bidder of each slot, 0 for none.
pub type Page = Vec<u8>;

/// The sheet that holds a round. Counts that do not fit their field are not for this function.
pub fn sheet(round: &Round) -> Vec<u8> {
    let mut bytes = b"PAS".to_vec();
    let version: u16 = if round.tick.is_some() { 2 } else { 1 };
    bytes.extend(version.to_le_bytes());
    bytes.push(u8::try_from(round.bids.len()).expect("a byte holds n"));
    bytes.push(u8::try_from(round.effects.len()).expect("a byte holds m"));
    let count = u16::try_from(round.constraints.len()).expect("two bytes hold c");
    bytes.extend(count.to_le_bytes());
    bytes.extend(round.tick.iter().flat_map(|tick| tick.to_le_bytes()));
    bytes.extend(round.effects.iter().flat_map(|effect| effect.to_le_bytes()));
    bytes.extend(round.bids.iter().flat_map(|bid| bid.to_le_bytes()));
    bytes.extend(round.constraints.iter().flatten());
    bytes
}

/// "The owner is at the own place (or that is 0), and the other bidder is at the other's place (or there is no other)", for an owner
/// that has a place.
pub fn is_broken(constraint: Constraint, page: &[u8]) -> bool {
    let [owner, own, other, slot] = constraint;
    let at = |bidder: u8, slot: u8| slot > 0 && page.get(usize::from(slot) - 1) == Some(&bidder);
    let placed = page.contains(&owner);
    placed && (own == 0 || at(owner, own)) && (other == 0 || at(other, slot))
}

/// The greedy page.
pub fn page(round: &Round) -> Page {
    let mut page = Page::new();
    for _ in &round.effects {
        let eligible = (1..=round.bids.len() as u8).filter(|&bidder| is_eligible(round, &page, bidder));
        // The last of equals wins `max_by_key`, so the bidders are taken from the highest number down.
        let winner = eligible.rev().max_by_key(|&bidder| round.bids[usize::from(bidder) - 1]);
        page.push(winner.unwrap_or(0));
    }
    page
}

/// "With the places already filled and it at k, neither its own conditions nor those of an earlier winner are broken", and "only with a bid at or
/// above its floor".
fn is_eligible(round: &Round, page: &[u8], bidder: u8) -> bool {
    let mut with = page.to_vec();
    with.push(bidder);
    let concerned = |owner: u8| with.contains(&owner);
    let breaks = round.constraints.iter().any(|&of| concerned(of[0]) && is_broken(of, &with));
    !page.contains(&bidder) && !breaks && reaches_floor(round, page.len(), bidder)
}

/// "The smallest bid that the sheet would accept and that still wins the place"; 0 for an empty place.
pub fn price(round: &Round, slot: usize) -> u32 {
    let winner = page(round)[slot];
    if winner == 0 {
        return 0;
    }
    let wins = |bid: u32| {
        let mut replayed = round.clone();
        replayed.bids[usize::from(winner) - 1] = bid;
        page(&replayed)[slot] == winner
    };
    let mut accepted = (0..=LARGEST_BID).step_by(round.tick.unwrap_or(1) as usize);
    accepted.find(|&bid| wins(bid)).expect("its own bid wins")
}

/// "For every condition with own place k from 1 to m − 1, the list also has the condition with own place k + 1 and the same other part."
pub fn is_downward(round: &Round, bidder: u8) -> bool {
    let slots = round.effects.len() as u8;
    let asked = |of: &Constraint| [of[0], of[1] + 1, of[2], of[3]];
    let mut asking = round.constraints.iter().filter(|of| of[0] == bidder && of[1] >= 1 && of[1] < slots);
    asking.all(|of| round.constraints.contains(&asked(of)))
}

/// The gain of a bidder from the played round, by its constraints in the true one.
pub fn gain(played: &Round, truth: &Round, bidder: u8, worth: u32) -> i64 {
    let page = page(played);
    let Some(slot) = page.iter().position(|&winner| winner == bidder) else { return 0 };
    let (effect, price) = (i64::from(played.effects[slot]), i64::from(price(played, slot)));
    if truth.constraints.iter().any(|&of| of[0] == bidder && is_broken(of, &page)) {
        -(effect * price)
    } else {
        effect * (i64::from(worth) - price)
    }
}

/// "The sum of bid × effect over filled places."
pub fn total(round: &Round, page: &[u8]) -> u64 {
    let filled = page.iter().zip(&round.effects).filter(|(&bidder, _)| bidder > 0);
    filled.map(|(&bidder, &effect)| u64::from(round.bids[usize::from(bidder) - 1]) * u64::from(effect)).sum()
}

/// The best page: every page is looked at, in dictionary order, and the first with the largest total is kept.
pub fn best_page(round: &Round) -> Page {
    let mut best: Option<Page> = None;
    every_page(round, &mut Page::new(), &mut |page| {
        let broken = round.constraints.iter().any(|&of| is_broken(of, page));
        let obeys = page.iter().enumerate().all(|(slot, &bidder)| bidder == 0 || reaches_floor(round, slot, bidder));
        let better = best.as_ref().is_none_or(|best| total(round, page) > total(round, best));
        if !broken && obeys && better {
            best = Some(page.to_vec());
        }
    });
    best.expect("the empty page breaks nothing")
}

/// Shows every page that continues this one, in dictionary order.
fn every_page(round: &Round, page: &mut Page, show: &mut impl FnMut(&[u8])) {
    if page.len() == round.effects.len() {
        show(page);
        return;
    }
    for bidder in 0..=round.bids.len() as u8 {
        if bidder == 0 || !page.contains(&bidder) {
            page.push(bidder);
            every_page(round, page, show);
            page.pop();
        }
    }
}
