//! The fourteen calls with typed answers, eleven of them over the bytes of sheets that nobody has checked.

use crate::page::{bidders, BestPage, Page};
use crate::part::OwnerPart;
use crate::raw;
use crate::sheet::{Bidder, Constraint, Sheet, Slot};
use crate::Refusal;

/// The most slots that a sheet can have.
const MOST_SLOTS: usize = 16;

/// The bytes of the longest sheet.
const MOST_BYTES: usize = 4429;

/// The bytes of the longest list of top-of-page terms. Lists by rivals are shorter.
const MOST_TERMS_BYTES: usize = 4092;

/// Checks a sheet: refusals 1 to 13 and 26 to 28. Every other call that takes a sheet does this by itself.
pub fn check(sheet: &[u8]) -> Result<(), Refusal> {
    Refusal::none_or(raw::check(sheet))
}

/// Plays a sheet: fills the slots from the top, each with the highest bid among the bidders that are eligible for it (equal bids: the
/// lower number), and gives each winner the smallest bid that the sheet would accept and with which it would still have won as its price.
/// Refused with 1 to 13 or 26 to 28.
pub fn play(sheet: &[u8]) -> Result<Page, Refusal> {
    let mut result = [0; 5 * MOST_SLOTS];
    play_into(sheet, &mut result)?;
    Ok(Page::from_result(&result[..5 * slots(sheet)]))
}

/// Plays a sheet into a lent buffer, without allocation: 5 bytes a slot, the bidder (0 if empty) and the price, low byte first. Later
/// bytes stay as they were, and on a refusal all of them. Refused with 1 to 13 or 26 to 28, or with 19 where the buffer is too short; 80 bytes
/// always do.
pub fn play_into(sheet: &[u8], result: &mut [u8]) -> Result<(), Refusal> {
    Refusal::none_or(raw::play(sheet, result))
}

/// Plays a sheet with a floor under each slot, from the top down: a bidder is eligible for a slot only with a bid at or above its floor, and a price
/// is the smallest bid that the sheet would accept and with which the winner would still have won, with the same floors. So no price of a filled slot is
/// below the floor, and where the floor is no multiple of the tick the next one is the least price. An empty slot has price 0. With floors of 0 it is
/// [`play`]. Refused with 1 to 13 or 26 to 28, with 30 where there are not as many floors as slots, or with 31 for a floor above 1,000,000,000.
pub fn play_floors(sheet: &[u8], floors: &[u32]) -> Result<Page, Refusal> {
    let mut result = [0; 5 * MOST_SLOTS];
    play_floors_into(sheet, floors, &mut result)?;
    Ok(Page::from_result(&result[..5 * slots(sheet)]))
}

/// Plays a sheet with floors into a lent buffer, as [`play_into`] without them. Refused as [`play_floors`], or with 19 where the buffer is too short.
pub fn play_floors_into(sheet: &[u8], floors: &[u32], result: &mut [u8]) -> Result<(), Refusal> {
    Refusal::none_or(raw::play_floors(sheet, floors, result))
}

/// Whether the list of a bidder, the constraints that it owns, is downward monotonic: for each of them with an own slot that is not the
/// last, the list has the same constraint with the next own slot too. An empty list is. Refused with 1 to 13, 26 to 28, or 16.
pub fn is_downward(sheet: &[u8], bidder: Bidder) -> Result<bool, Refusal> {
    let mut answer = 0;
    Refusal::none_or(raw::downward(sheet, u32::from(bidder.0), &mut answer))?;
    Ok(answer == 1)
}

/// What a bidder gains at a worth per click, up to 1,000,000,000, when the first sheet is played and its true constraints are those that
/// it owns in the truth sheet: 0 without a slot; effect × (worth − price) where none of the true constraints is broken on the page; and
/// −(effect × price) where one is. The truth sheet may have another version and another tick. Refused with 1 to 17 or 26 to 28.
pub fn gain(played: &[u8], truth: &[u8], bidder: Bidder, worth: u32) -> Result<i64, Refusal> {
    let mut gain = 0;
    Refusal::none_or(raw::gain(played, truth, u32::from(bidder.0), worth, &mut gain))?;
    Ok(gain)
}

/// What a bidder gains, as [`gain`] has it, when the first sheet is played with a floor under each slot. Refused with 1 to 13 or 26 to 28 for the
/// played sheet, with 30 where there are not as many floors as slots, with 31 for a floor above 1,000,000,000, or with 14 to 17.
pub fn gain_floors(played: &[u8], floors: &[u32], truth: &[u8], bidder: Bidder, worth: u32) -> Result<i64, Refusal> {
    let mut gain = 0;
    Refusal::none_or(raw::gain_floors(played, floors, truth, u32::from(bidder.0), worth, &mut gain))?;
    Ok(gain)
}

/// The best page of a sheet of at most 8 bidders and 8 slots: of the pages that break no constraint one with the largest total, and of
/// those the first in dictionary order of the bidders' numbers by slot, 0 for an empty one. Refused with 1 to 13, 26 to 28, or 18.
pub fn best_page(sheet: &[u8]) -> Result<BestPage, Refusal> {
    let mut result = [0; MOST_SLOTS];
    let total = best_into(sheet, &mut result)?;
    Ok(BestPage { bidders: bidders(&result[..slots(sheet)]), total })
}

/// Writes the best page's bidder numbers to a lent buffer, a byte a slot (0 for empty), without allocation, and gives the total. Later
/// bytes stay as they were, and on a refusal all of them. Refused with 1 to 13, 26 to 28, 18, or with 19 where the buffer is too short.
pub fn best_into(sheet: &[u8], result: &mut [u8]) -> Result<u64, Refusal> {
    let mut total = 0;
    Refusal::none_or(raw::best(sheet, result, &mut total))?;
    Ok(total)
}

/// The best page of a sheet with a floor under each slot: as [`best_page`], among the pages that besides have in every filled slot a bid at or above its
/// floor. Refused with 1 to 13 or 26 to 28, with 30 where there are not as many floors as slots, with 31 for a floor above 1,000,000,000, or with 18.
pub fn best_page_floors(sheet: &[u8], floors: &[u32]) -> Result<BestPage, Refusal> {
    let mut result = [0; MOST_SLOTS];
    let total = best_floors_into(sheet, floors, &mut result)?;
    Ok(BestPage { bidders: bidders(&result[..slots(sheet)]), total })
}

/// Writes the best page with floors to a lent buffer, as [`best_into`] without them, and gives the total. Refused as [`best_page_floors`], or with 19
/// where the buffer is too short.
pub fn best_floors_into(sheet: &[u8], floors: &[u32], result: &mut [u8]) -> Result<u64, Refusal> {
    let mut total = 0;
    Refusal::none_or(raw::best_floors(sheet, floors, result, &mut total))?;
    Ok(total)
}

/// The part of a sheet of version 2 with the constraints of one bidder: a slice of the lent bytes themselves, where the part stands and the
/// constraints in it. Refused with 1 to 13 or 26 to 28, with 29 for an otherwise accepted sheet of version 1, or with 16.
pub fn owner_part(sheet: &[u8], bidder: Bidder) -> Result<OwnerPart<'_>, Refusal> {
    let (mut start, mut length) = (0, 0);
    Refusal::none_or(raw::owner_part(sheet, u32::from(bidder.0), &mut start, &mut length))?;
    Ok(OwnerPart::of(sheet, start, length))
}

/// The canonical form of a sheet, the one sheet for its round: version 2 with the same tick (1 where the sheet is of version 1), effects and bids, and
/// the constraints in order of owner, own slot, other bidder, other's slot, each once. A sheet of version 2 is its own canonical form. The two get the
/// same answers from every call but [`owner_part`], which refuses version 1. Refused with 1 to 13 or 26 to 28.
///
/// ```
/// use pas::{Bidder, Kind, Refusal, SheetBuilder, Slot};
///
/// let (first, second) = (Kind::OwnSlot(Slot(1)), Kind::OwnSlot(Slot(2)));
/// let round = SheetBuilder::new().effects([2, 1]).bids([7]);
/// let kept = round.constraint(Bidder(1), second).constraint(Bidder(1), first).constraint(Bidder(1), second).bytes();
///
/// let canonical = pas::canonical(&kept)?;
/// assert_eq!((canonical.version(), canonical.tick()), (2, 1));
/// assert_eq!(canonical.all_constraints().iter().map(|constraint| constraint.kind).collect::<Vec<_>>(), [first, second]);
/// assert_eq!(pas::canonical(canonical.as_bytes())?, canonical);
/// assert_eq!(pas::play(&kept)?, canonical.play());
/// # Ok::<(), Refusal>(())
/// ```
pub fn canonical(sheet: &[u8]) -> Result<Sheet, Refusal> {
    let mut result = [0; MOST_BYTES];
    let written = canonical_into(sheet, &mut result)?;
    Ok(Sheet::of_accepted(result[..written].to_vec()))
}

/// Writes the canonical form of a sheet to a lent buffer, without allocation, and gives its length. Later bytes stay as they were, and on a refusal all
/// of them. Refused as [`canonical`], or with 19 where the buffer is shorter than the bytes to be written; 4 bytes more than the sheet has always do, and
/// so do 4,429.
pub fn canonical_into(sheet: &[u8], result: &mut [u8]) -> Result<usize, Refusal> {
    let mut written = 0;
    Refusal::none_or(raw::canonical(sheet, result, &mut written))?;
    Ok(written)
}

/// Whether two sheets say the same round: bidders, slots, tick, effects and bids are equal, and each has every constraint that the other has. The
/// version does not matter, nor the order in which a sheet of version 1 has its constraints and how often it has one. It is told by the canonical
/// forms, which are equal exactly then. Refused with 1 to 13 or 26 to 28 of the first sheet that is not accepted.
///
/// ```
/// use pas::{Bidder, Kind, Refusal, SheetBuilder, Slot};
///
/// let round = SheetBuilder::new().effects([2, 1]).bids([7]).constraint(Bidder(1), Kind::OwnSlot(Slot(2)));
/// let twice = round.clone().constraint(Bidder(1), Kind::OwnSlot(Slot(2)));
/// let more = round.clone().constraint(Bidder(1), Kind::OwnSlot(Slot(1)));
///
/// assert!(pas::same_round(&round.bytes(), &twice.bytes())?);
/// assert!(pas::same_round(&round.bytes(), &round.clone().tick(1).bytes())?);
/// assert!(!pas::same_round(&round.bytes(), &more.bytes())?);
/// assert!(!pas::same_round(&round.bytes(), &round.clone().tick(7).bytes())?);
/// assert_eq!(pas::same_round(&round.bytes(), b"PAS"), Err(Refusal::SheetTooShort));
/// # Ok::<(), Refusal>(())
/// ```
pub fn same_round(one: &[u8], other: &[u8]) -> Result<bool, Refusal> {
    let (mut first, mut second) = ([0; MOST_BYTES], [0; MOST_BYTES]);
    let (long, as_long) = (canonical_into(one, &mut first)?, canonical_into(other, &mut second)?);
    Ok(first[..long] == second[..as_long])
}

/// The constraints of a bidder from its top-of-page terms, for a sheet with so many bidders and slots: the lowest slot that the owner accepts, its limit,
/// and for each bidder, from bidder 1 on, how many of the top slots that one must not have, the bar against it. The owner's own bar is 0.
///
/// They are in the order of own slot, other bidder, other's slot: first, for each bidder, that it stands in one of the slots from 1 to its bar, then that the
/// owner stands in one of the slots below its limit. The list is downward monotonic on every sheet with so many bidders and slots, and
/// [`SheetBuilder::slot_terms`](crate::SheetBuilder::slot_terms) puts it on one. It is empty where the limit is the last slot and every bar is 0.
///
/// Refused with 4, 5, 16 for the owner, 20 for a limit of 0 or above the number of slots, 21 where there are not as many bars as bidders or one is above the number of
/// slots, or 22 for a bar against the owner that is not 0.
///
/// ```
/// use pas::{Bidder, Kind, Refusal, Slot};
///
/// // Bidder 2 takes slots 1 and 2 of three, minds bidder 1 at the top, and will not stand on one page with bidder 3.
/// let terms = pas::slot_terms(3, 3, Bidder(2), Slot(2), &[1, 0, 3])?;
/// let with = |other, slot| Kind::OtherSlot { other: Bidder(other), slot: Slot(slot) };
/// let kinds: Vec<Kind> = terms.iter().map(|constraint| constraint.kind).collect();
/// assert_eq!(kinds, [with(1, 1), with(3, 1), with(3, 2), with(3, 3), Kind::OwnSlot(Slot(3))]);
/// assert!(terms.iter().all(|constraint| constraint.owner == Bidder(2)));
///
/// assert_eq!(pas::slot_terms(3, 3, Bidder(2), Slot(4), &[1, 0, 3]), Err(Refusal::WrongLimit));
/// assert_eq!(pas::slot_terms(3, 3, Bidder(2), Slot(2), &[1, 0, 4]), Err(Refusal::WrongBars));
/// assert_eq!(pas::slot_terms(3, 3, Bidder(2), Slot(2), &[1, 1, 3]), Err(Refusal::BarAgainstOwner));
/// # Ok::<(), Refusal>(())
/// ```
pub fn slot_terms(bidders: usize, slots: usize, owner: Bidder, limit: Slot, bars: &[u8]) -> Result<Vec<Constraint>, Refusal> {
    let mut result = [0; MOST_TERMS_BYTES];
    let count = slot_terms_into(bidders, slots, owner, limit, bars, &mut result)?;
    Ok(Constraint::all_in(&result[..4 * count]).collect())
}

/// Writes the constraints of a bidder from its top-of-page terms to a lent buffer, without allocation, four bytes each as a sheet has them (owner, own slot,
/// other bidder, other's slot), and gives how many they are. Later bytes stay as they were, and on a refusal all of them. Refused as [`slot_terms`], or with 19
/// where the buffer is shorter than the bytes to be written; 4,092 bytes always do.
pub fn slot_terms_into(bidders: usize, slots: usize, owner: Bidder, limit: Slot, bars: &[u8], result: &mut [u8]) -> Result<usize, Refusal> {
    let (owner, limit, mut count) = (u32::from(owner.0), u32::from(limit.0), 0);
    Refusal::none_or(raw::slot_terms(number(bidders), number(slots), owner, limit, bars, result, &mut count))?;
    Ok(count as usize)
}

/// The constraints of a bidder that will stand only above certain others, its rivals, for a sheet with so many bidders and slots: for each rival, all pairs of
/// slots in which the rival's is above the owner's. The rivals are a set: they may come in any order and more than once, and there may be none.
///
/// The constraints are in the order of own slot, rival, rival's slot. The list is downward monotonic on every sheet with so many bidders and slots, and
/// [`SheetBuilder::above_terms`](crate::SheetBuilder::above_terms) puts it on one. It is empty where there is no rival or only one slot.
///
/// Refused with 4, 5, 16 for the owner, 23 for a rival that is 0 or not one of the bidders, 24 where the owner is among its rivals, or 25 for more than 1,024
/// constraints: each rival gives slots × (slots − 1) / 2 of them.
///
/// ```
/// use pas::{Bidder, Kind, Refusal, Slot};
///
/// // Bidder 1 of three stands above bidder 3 or not at all where that one is.
/// let terms = pas::above_terms(3, 3, Bidder(1), &[Bidder(3)])?;
/// let below = |own, slot| Kind::Pair { own: Slot(own), other: Bidder(3), slot: Slot(slot) };
/// assert_eq!(terms.iter().map(|constraint| constraint.kind).collect::<Vec<_>>(), [below(2, 1), below(3, 1), below(3, 2)]);
/// assert_eq!(pas::above_terms(3, 3, Bidder(1), &[Bidder(3), Bidder(3)])?, terms);
///
/// assert_eq!(pas::above_terms(3, 3, Bidder(1), &[Bidder(4)]), Err(Refusal::WrongSet));
/// assert_eq!(pas::above_terms(3, 3, Bidder(1), &[Bidder(1)]), Err(Refusal::RivalIsOwner));
/// # Ok::<(), Refusal>(())
/// ```
pub fn above_terms(bidders: usize, slots: usize, owner: Bidder, rivals: &[Bidder]) -> Result<Vec<Constraint>, Refusal> {
    let mut result = [0; MOST_TERMS_BYTES];
    let count = above_terms_into(bidders, slots, owner, rivals, &mut result)?;
    Ok(Constraint::all_in(&result[..4 * count]).collect())
}

/// Writes the constraints of a bidder that will stand only above its rivals to a lent buffer, without allocation, four bytes each as a sheet has them (owner, own
/// slot, other bidder, other's slot), and gives how many they are. Later bytes stay as they were, and on a refusal all of them. Refused as [`above_terms`], or
/// with 19 where the buffer is shorter than the bytes to be written; 4,056 bytes always do.
pub fn above_terms_into(bidders: usize, slots: usize, owner: Bidder, rivals: &[Bidder], result: &mut [u8]) -> Result<usize, Refusal> {
    let (owner, rivals, mut count) = (u32::from(owner.0), raw::numbers(rivals), 0);
    Refusal::none_or(raw::above_terms(number(bidders), number(slots), owner, rivals, result, &mut count))?;
    Ok(count as usize)
}

/// Rival sets as [`share_page`] takes them: one after another from bidder 1's, each with its length in one byte before it. There is one for each bidder, also for
/// those without rivals and for those that are no members. Each may be in any order and may name a rival more than once.
///
/// Nothing else is judged here, but a set of more than 255 numbers has no such form and is refused with 23. (A set without repeats has at most 63.)
///
/// ```
/// use pas::{Bidder, Refusal};
///
/// let sets: [&[Bidder]; 3] = [&[Bidder(2), Bidder(3)], &[], &[Bidder(2)]];
/// assert_eq!(pas::rival_sets(sets)?, [2, 2, 3, 0, 1, 2]);
/// assert_eq!(pas::rival_sets([vec![Bidder(2); 256], vec![]]), Err(Refusal::WrongSet));
/// # Ok::<(), Refusal>(())
/// ```
pub fn rival_sets<Set: AsRef<[Bidder]>>(sets: impl IntoIterator<Item = Set>) -> Result<Vec<u8>, Refusal> {
    let mut lent = Vec::new();
    for set in sets {
        let rivals = raw::numbers(set.as_ref());
        lent.push(u8::try_from(rivals.len()).map_err(|_| Refusal::WrongSet)?);
        lent.extend(rivals);
    }
    Ok(lent)
}

/// Whether a set of bidders, the members, could share a page of so many slots, each above every rival of its own among them: the order in which they could, from
/// the top down, or none. Of several such orders it is the first in dictionary order of the bidders' numbers. More members than slots cannot share a page, and a
/// set without members can.
///
/// The members may come in any order and more than once. [`rival_sets`] lays out the rival sets, one for each of the bidders; rivals that are no members do not
/// matter. On a page with a yes's members in the first slots, in this order, and nobody else, no constraint of [`above_terms`] is broken that comes of these sets.
///
/// Refused with 4, 5, 23 for a set that has a number that is 0 or not a bidder's or where there are not as many rival sets as bidders, or 24 for a bidder in its
/// own set, member or not.
///
/// ```
/// use pas::{Bidder, Refusal};
///
/// // Bidder 3 wants to stand above 1 and 2, bidder 2 above 1.
/// let none: &[Bidder] = &[];
/// let sets = pas::rival_sets([none, &[Bidder(1)], &[Bidder(1), Bidder(2)], none])?;
/// let order = |members: &[u8]| pas::share_page(4, 3, &members.iter().copied().map(Bidder).collect::<Vec<_>>(), &sets);
/// assert_eq!(order(&[1, 2, 3])?, Some(vec![Bidder(3), Bidder(2), Bidder(1)]));
/// assert_eq!(order(&[4, 2, 1])?, Some(vec![Bidder(2), Bidder(1), Bidder(4)]));
/// assert_eq!(order(&[])?, Some(vec![]));
/// assert_eq!(order(&[1, 2, 3, 4])?, None, "there are three slots");
/// assert_eq!(order(&[5]), Err(Refusal::WrongSet));
///
/// // Each of the two wants to stand above the other.
/// let sets = pas::rival_sets([[Bidder(2)], [Bidder(1)]])?;
/// assert_eq!(pas::share_page(2, 2, &[Bidder(1), Bidder(2)], &sets)?, None);
/// # Ok::<(), Refusal>(())
/// ```
pub fn share_page(bidders: usize, slots: usize, members: &[Bidder], rival_sets: &[u8]) -> Result<Option<Vec<Bidder>>, Refusal> {
    let mut result = [0; MOST_SLOTS];
    let yes = share_page_into(bidders, slots, members, rival_sets, &mut result)?;
    // No bidder has the number 0, with which the bytes after the order are left.
    let order = || result.iter().copied().take_while(|&bidder| bidder != 0).map(Bidder).collect();
    Ok(yes.then(order))
}

/// Whether the members could share a page, as [`share_page`] has it, with their order written to a lent buffer, a byte a member, without allocation. Later bytes stay
/// as they were, and on a no or a refusal all of them. Refused as [`share_page`], or with 19 where the order of a yes is longer than the buffer; as many bytes as
/// there are slots always do, and a no needs none.
pub fn share_page_into(bidders: usize, slots: usize, members: &[Bidder], rival_sets: &[u8], result: &mut [u8]) -> Result<bool, Refusal> {
    let (members, mut answer) = (raw::numbers(members), 0);
    Refusal::none_or(raw::share_page(number(bidders), number(slots), members, rival_sets, result, &mut answer))?;
    Ok(answer == 1)
}

/// How far below the best the played page can be, for a sheet whose lists all come from "above named rivals", as [`above_terms`] writes them: a factor. So many
/// times the total of the page that [`play`] gives is at least the total of every page of the round, also of one that breaks constraints. A total is the sum of
/// bid × effect over filled slots.
///
/// The factor is d + 1, d being the largest number of bidders that name one same rival: from 1, where nobody names anybody and the played page is a best one, to
/// 64. Bids and effects do not matter to it. It is none where the list of some bidder is not of that kind: where it has a constraint that is no pair with the
/// rival above the owner, or lacks one of the pairs for a rival that it names. An empty list is of that kind, and order and repeats do not matter.
///
/// It is a bound and not the loss: a page may be as good as the best with any factor. Nothing is said of pages with floors. Refused with 1 to 13 or 26 to 28.
///
/// ```
/// use pas::{Bidder, Kind, Refusal, SheetBuilder, Slot};
///
/// // Bidders 2 and 3 want to stand above 1, who bids as much and has the lowest number.
/// let round = SheetBuilder::new().effects([1, 1, 1]).bids([7, 7, 7]);
/// let rivals = round.clone().above_terms(Bidder(2), [Bidder(1)]).above_terms(Bidder(3), [Bidder(1)]);
/// assert_eq!(pas::loss_bound(&rivals.bytes())?, Some(3));
///
/// // Here the played page is that far from the best: it has bidder 1 alone.
/// let sheet = rivals.clone().build()?;
/// assert_eq!(sheet.play().bidders(), [Some(Bidder(1)), None, None]);
/// assert_eq!(sheet.best_page()?.total, 3 * 7);
///
/// assert_eq!(pas::loss_bound(&round.bytes())?, Some(1));
/// assert_eq!(pas::loss_bound(&rivals.constraint(Bidder(1), Kind::OwnSlot(Slot(3))).bytes())?, None);
/// assert_eq!(pas::loss_bound(b"PAS"), Err(Refusal::SheetTooShort));
/// # Ok::<(), Refusal>(())
/// ```
pub fn loss_bound(sheet: &[u8]) -> Result<Option<u32>, Refusal> {
    let mut factor = 0;
    Refusal::none_or(raw::loss_bound(sheet, &mut factor))?;
    Ok((factor != 0).then_some(factor))
}

/// A count as a call takes it: one too large for the call's number is above its limit still as the largest of these.
fn number(count: usize) -> u32 {
    u32::try_from(count).unwrap_or(u32::MAX)
}

/// The number of slots of an accepted sheet.
fn slots(sheet: &[u8]) -> usize {
    usize::from(sheet[6])
}
