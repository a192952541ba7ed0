//! Accepted sheets, and a builder for them.

use crate::calls;
use crate::page::{BestPage, Page};
use crate::part::OwnerPart;
use crate::Refusal;

/// A bidder by its number, counted from 1 in the order of the bids.
#[derive(Clone, Copy, Debug, PartialEq, Eq, Hash, PartialOrd, Ord)]
#[repr(transparent)]
pub struct Bidder(pub u8);

/// A slot of the page ("place" in the C header), counted from 1 at the top.
#[derive(Clone, Copy, Debug, PartialEq, Eq, Hash, PartialOrd, Ord)]
pub struct Slot(pub u8);

/// What a bidder will not have ("condition" in the C header). It binds once its owner has a slot, and both parts must be true to break it.
#[derive(Clone, Copy, Debug, PartialEq, Eq, Hash)]
pub struct Constraint {
    /// The bidder that sets the constraint.
    pub owner: Bidder,
    /// What breaks it.
    pub kind: Kind,
}

/// The three kinds of constraint.
#[derive(Clone, Copy, Debug, PartialEq, Eq, Hash)]
pub enum Kind {
    /// The owner stands in this slot.
    OwnSlot(Slot),
    /// The other bidder stands in its slot, wherever the owner is.
    OtherSlot {
        /// The other bidder.
        other: Bidder,
        /// The other's slot.
        slot: Slot,
    },
    /// The owner stands in its own slot and the other bidder in the other's.
    Pair {
        /// The owner's slot.
        own: Slot,
        /// The other bidder.
        other: Bidder,
        /// The other's slot.
        slot: Slot,
    },
}

impl Constraint {
    /// The four bytes of the sheet: owner, own slot, other bidder, other's slot.
    fn bytes(self) -> [u8; 4] {
        let owner = self.owner.0;
        match self.kind {
            Kind::OwnSlot(own) => [owner, own.0, 0, 0],
            Kind::OtherSlot { other, slot } => [owner, 0, other.0, slot.0],
            Kind::Pair { own, other, slot } => [owner, own.0, other.0, slot.0],
        }
    }

    /// The constraint of four bytes that the library has accepted: other bidder and other's slot are both 0, or neither is.
    pub(crate) fn from_bytes([owner, own, other, slot]: [u8; 4]) -> Constraint {
        let kind = match (own, other) {
            (_, 0) => Kind::OwnSlot(Slot(own)),
            (0, _) => Kind::OtherSlot { other: Bidder(other), slot: Slot(slot) },
            _ => Kind::Pair { own: Slot(own), other: Bidder(other), slot: Slot(slot) },
        };
        Constraint { owner: Bidder(owner), kind }
    }

    /// The constraints of bytes that the library has accepted or written, four bytes each.
    pub(crate) fn all_in(bytes: &[u8]) -> impl ExactSizeIterator<Item = Constraint> + DoubleEndedIterator + '_ {
        bytes.chunks_exact(4).map(|field| Constraint::from_bytes([field[0], field[1], field[2], field[3]]))
    }
}

/// Bytes of a sheet of version 1 before its effects.
const HEADER: usize = 9;
/// Bytes of the tick, which follows them in version 2.
const TICK: usize = 4;

/// A sheet that the library has accepted. What it holds can be read back, as the builder takes it: a builder that is given the effects,
/// the bids, all constraints and, for version 2, the tick builds the same bytes.
///
/// Two sheets are equal (`==`) where their bytes are. One round can have many sheets of version 1: [`same_round`](Sheet::same_round) compares rounds, and
/// [`canonical`](Sheet::canonical) gives the one sheet to keep or to hash.
#[derive(Clone, Debug, PartialEq, Eq, Hash)]
pub struct Sheet {
    bytes: Vec<u8>,
}

impl Sheet {
    /// Copies the bytes if the library accepts them; refused with 1 to 13 or 26 to 28.
    pub fn from_bytes(bytes: &[u8]) -> Result<Sheet, Refusal> {
        calls::check(bytes)?;
        Ok(Sheet { bytes: bytes.to_vec() })
    }

    /// The sheet of bytes that the library accepts, as those that it has written are.
    pub(crate) fn of_accepted(bytes: Vec<u8>) -> Sheet {
        Sheet { bytes }
    }

    /// The sheet's bytes.
    pub fn as_bytes(&self) -> &[u8] {
        &self.bytes
    }

    /// The version of the sheet's format: 2 where the tick stands in the sheet, else 1.
    pub fn version(&self) -> u16 {
        u16::from_le_bytes([self.bytes[3], self.bytes[4]])
    }

    /// The tick, of which each bid and each price is a multiple; 1 in version 1.
    pub fn tick(&self) -> u32 {
        match self.version() {
            1 => 1,
            _ => u32::from_le_bytes([self.bytes[9], self.bytes[10], self.bytes[11], self.bytes[12]]),
        }
    }

    /// How many bidders there are.
    pub fn bidders(&self) -> usize {
        usize::from(self.bytes[5])
    }

    /// How many slots there are.
    pub fn slots(&self) -> usize {
        usize::from(self.bytes[6])
    }

    /// How many constraints there are; [`all_constraints`](Sheet::all_constraints) gives them.
    pub fn constraints(&self) -> usize {
        usize::from(u16::from_le_bytes([self.bytes[7], self.bytes[8]]))
    }

    /// The effects of the slots, from the top down.
    pub fn effects(&self) -> Vec<u32> {
        self.fields(0, self.slots()).map(u32::from_le_bytes).collect()
    }

    /// The bids per click, from bidder 1 on.
    pub fn bids(&self) -> Vec<u32> {
        self.fields(self.slots(), self.bidders()).map(u32::from_le_bytes).collect()
    }

    /// The constraints of all bidders, in sheet order. Each has the kind that its bytes say: a [`Kind::Pair`] that was built with own slot 0
    /// is the same bytes as a [`Kind::OtherSlot`], and comes back as one.
    pub fn all_constraints(&self) -> Vec<Constraint> {
        self.fields(self.slots() + self.bidders(), self.constraints()).map(Constraint::from_bytes).collect()
    }

    /// The list of a bidder: the constraints that it owns, in sheet order. It is empty for a bidder that is not in the sheet. All constraints
    /// are looked at, in either version; of a sheet of version 2 [`owner_part`](Sheet::owner_part) finds the list where it stands.
    pub fn list_of(&self, bidder: Bidder) -> Vec<Constraint> {
        let mut list = self.all_constraints();
        list.retain(|constraint| constraint.owner == bidder);
        list
    }

    /// The part of a sheet of version 2 with the constraints of one bidder; see [`owner_part`](crate::owner_part). Refused with 29 for a sheet of
    /// version 1, or with 16.
    pub fn owner_part(&self, bidder: Bidder) -> Result<OwnerPart<'_>, Refusal> {
        calls::owner_part(&self.bytes, bidder)
    }

    /// The canonical form, the one sheet for the round; see [`canonical`](crate::canonical). An accepted sheet cannot be refused here.
    pub fn canonical(&self) -> Sheet {
        calls::canonical(&self.bytes).expect("an accepted sheet has a canonical form")
    }

    /// Writes the canonical form to a lent buffer and gives its length; see [`canonical_into`](crate::canonical_into). Only the buffer can be refused here.
    pub fn canonical_into(&self, result: &mut [u8]) -> Result<usize, Refusal> {
        calls::canonical_into(&self.bytes, result)
    }

    /// Whether another sheet says the same round; see [`same_round`](crate::same_round).
    pub fn same_round(&self, other: &Sheet) -> bool {
        calls::same_round(&self.bytes, &other.bytes).expect("accepted sheets have canonical forms")
    }

    /// How many times the played page's total is at least that of every page, where all lists come from "above named rivals"; none where they do not. See
    /// [`loss_bound`](crate::loss_bound). An accepted sheet cannot be refused here.
    pub fn loss_bound(&self) -> Option<u32> {
        calls::loss_bound(&self.bytes).expect("an accepted sheet has an answer")
    }

    /// So many of the sheet's fields of four bytes, after those that are skipped.
    fn fields(&self, skipped: usize, count: usize) -> impl Iterator<Item = [u8; 4]> + '_ {
        let header = if self.version() == 1 { HEADER } else { HEADER + TICK };
        let fields = self.bytes[header..].chunks_exact(4).skip(skipped).take(count);
        fields.map(|field| [field[0], field[1], field[2], field[3]])
    }

    /// Plays the round; see [`play`](crate::play). An accepted sheet cannot be refused here.
    pub fn play(&self) -> Page {
        calls::play(&self.bytes).expect("an accepted sheet is played")
    }

    /// Plays the round into a lent buffer of at least 5 bytes a slot; see [`play_into`](crate::play_into).
    pub fn play_into(&self, result: &mut [u8]) -> Result<(), Refusal> {
        calls::play_into(&self.bytes, result)
    }

    /// Plays the round with a floor under each slot; see [`play_floors`](crate::play_floors). Only the floors can be refused here.
    pub fn play_floors(&self, floors: &[u32]) -> Result<Page, Refusal> {
        calls::play_floors(&self.bytes, floors)
    }

    /// Plays the round with floors into a lent buffer of at least 5 bytes a slot; see [`play_floors_into`](crate::play_floors_into).
    pub fn play_floors_into(&self, floors: &[u32], result: &mut [u8]) -> Result<(), Refusal> {
        calls::play_floors_into(&self.bytes, floors, result)
    }

    /// Whether the list of a bidder is downward monotonic; see [`is_downward`](crate::is_downward). Only the bidder can be refused here.
    pub fn is_downward(&self, bidder: Bidder) -> Result<bool, Refusal> {
        calls::is_downward(&self.bytes, bidder)
    }

    /// What a bidder gains at a worth per click when this sheet is played and its true constraints are those of the truth sheet; see
    /// [`gain`](crate::gain).
    pub fn gain(&self, truth: &Sheet, bidder: Bidder, worth: u32) -> Result<i64, Refusal> {
        calls::gain(&self.bytes, &truth.bytes, bidder, worth)
    }

    /// What a bidder gains when this sheet is played with a floor under each slot; see [`gain_floors`](crate::gain_floors).
    pub fn gain_floors(&self, floors: &[u32], truth: &Sheet, bidder: Bidder, worth: u32) -> Result<i64, Refusal> {
        calls::gain_floors(&self.bytes, floors, &truth.bytes, bidder, worth)
    }

    /// The best page of a round of at most 8 bidders and 8 slots; see [`best_page`](crate::best_page).
    pub fn best_page(&self) -> Result<BestPage, Refusal> {
        calls::best_page(&self.bytes)
    }

    /// Writes the best page to a lent buffer of at least a byte a slot; see [`best_into`](crate::best_into).
    pub fn best_into(&self, result: &mut [u8]) -> Result<u64, Refusal> {
        calls::best_into(&self.bytes, result)
    }

    /// The best page with a floor under each slot; see [`best_page_floors`](crate::best_page_floors).
    pub fn best_page_floors(&self, floors: &[u32]) -> Result<BestPage, Refusal> {
        calls::best_page_floors(&self.bytes, floors)
    }

    /// Writes the best page with floors to a lent buffer of at least a byte a slot; see [`best_floors_into`](crate::best_floors_into).
    pub fn best_floors_into(&self, floors: &[u32], result: &mut [u8]) -> Result<u64, Refusal> {
        calls::best_floors_into(&self.bytes, floors, result)
    }
}

impl AsRef<[u8]> for Sheet {
    fn as_ref(&self) -> &[u8] {
        &self.bytes
    }
}

/// Collects the parts of a sheet in any order. It judges nothing: [`build`](SheetBuilder::build) asks the library.
///
/// Constraints may be given in any order and more than once, one by one, as top-of-page terms or by rivals. With a tick, in version 2, they are a set: each is
/// written once, in the order of owner, own slot, other bidder, other's slot. In version 1 they are written as they came.
#[derive(Clone, Debug, Default)]
pub struct SheetBuilder {
    tick: Option<u32>,
    effects: Vec<u32>,
    bids: Vec<u32>,
    constraints: Vec<Given>,
}

/// What a builder is given of a bidder's list.
#[derive(Clone, Debug)]
enum Given {
    Constraint(Constraint),
    /// The constraints come of them once all bidders and slots are there.
    Terms {
        owner: Bidder,
        limit: Slot,
        bars: Vec<u8>,
    },
    /// The same.
    Above {
        owner: Bidder,
        rivals: Vec<Bidder>,
    },
}

impl SheetBuilder {
    /// A sheet with nothing in it yet.
    pub fn new() -> SheetBuilder {
        SheetBuilder::default()
    }

    /// Sets the tick, of which each bid must be a multiple; the sheet is then of version 2, and its constraints are put in order. Without one it
    /// is of version 1, which means a tick of 1.
    pub fn tick(mut self, tick: u32) -> SheetBuilder {
        self.tick = Some(tick);
        self
    }

    /// Adds the effects of the next slots, from the top down.
    pub fn effects(mut self, effects: impl IntoIterator<Item = u32>) -> SheetBuilder {
        self.effects.extend(effects);
        self
    }

    /// Adds the bids per click of the next bidders.
    pub fn bids(mut self, bids: impl IntoIterator<Item = u32>) -> SheetBuilder {
        self.bids.extend(bids);
        self
    }

    /// Adds one constraint.
    pub fn constraint(mut self, owner: Bidder, kind: Kind) -> SheetBuilder {
        self.constraints.push(Given::Constraint(Constraint { owner, kind }));
        self
    }

    /// Adds constraints.
    pub fn constraints(mut self, constraints: impl IntoIterator<Item = Constraint>) -> SheetBuilder {
        self.constraints.extend(constraints.into_iter().map(Given::Constraint));
        self
    }

    /// Adds the constraints of a bidder's top-of-page terms: the lowest slot that it accepts, its limit, and for each bidder, from bidder 1 on, how many of the
    /// top slots that one must not have, the bar against it; see [`slot_terms`](crate::slot_terms). They are those for all bidders and slots that the
    /// sheet has in the end, also for those that are added later.
    ///
    /// Terms add to what the bidder has: where they are all that it has, its list is downward monotonic. Terms that the library refuses, with 4, 5, 16 or 20 to 22,
    /// make [`build`](SheetBuilder::build) give that refusal. Terms that take the sheet above 1,024 constraints are refused with 6, as others are.
    ///
    /// ```
    /// use pas::{Bidder, Refusal, SheetBuilder, Slot};
    ///
    /// // Bidder 3 wants slot 1 or 2, and bidder 1 in neither of the two.
    /// let round = SheetBuilder::new().effects([4, 2, 1]).bids([10, 20, 30]);
    /// let sheet = round.clone().slot_terms(Bidder(3), Slot(2), [2, 0, 0]).build()?;
    /// assert_eq!(sheet.list_of(Bidder(3)), pas::slot_terms(3, 3, Bidder(3), Slot(2), &[2, 0, 0])?);
    /// assert!(sheet.is_downward(Bidder(3))?);
    /// assert_eq!(sheet.play().bidders(), [Some(Bidder(3)), Some(Bidder(2)), Some(Bidder(1))]);
    ///
    /// assert_eq!(round.clone().slot_terms(Bidder(3), Slot(4), [2, 0, 0]).build(), Err(Refusal::WrongLimit));
    /// assert_eq!(round.slot_terms(Bidder(3), Slot(2), [2, 0]).build(), Err(Refusal::WrongBars));
    /// # Ok::<(), Refusal>(())
    /// ```
    pub fn slot_terms(mut self, owner: Bidder, limit: Slot, bars: impl IntoIterator<Item = u8>) -> SheetBuilder {
        self.constraints.push(Given::Terms { owner, limit, bars: bars.into_iter().collect() });
        self
    }

    /// Adds the constraints of a bidder that will stand only above certain others, its rivals; see [`above_terms`](crate::above_terms). They are those for all
    /// bidders and slots that the sheet has in the end, also for those that are added later.
    ///
    /// They add to what the bidder has: where they are all that it has, its list is downward monotonic. Rivals that the library refuses, with 4, 5, 16 or 23 to
    /// 25, make [`build`](SheetBuilder::build) give that refusal. Where they take the sheet above 1,024 constraints it is refused with 6, as with others.
    ///
    /// ```
    /// use pas::{Bidder, Refusal, SheetBuilder};
    ///
    /// // Bidder 3 wants to stand above 1 and 2.
    /// let round = SheetBuilder::new().effects([4, 2, 1]).bids([30, 20, 10]);
    /// let sheet = round.clone().above_terms(Bidder(3), [Bidder(1), Bidder(2)]).build()?;
    /// assert_eq!(sheet.list_of(Bidder(3)), pas::above_terms(3, 3, Bidder(3), &[Bidder(1), Bidder(2)])?);
    /// assert!(sheet.is_downward(Bidder(3))?);
    /// assert_eq!(sheet.play().bidders(), [Some(Bidder(1)), Some(Bidder(2)), None]);
    ///
    /// assert_eq!(round.clone().above_terms(Bidder(3), [Bidder(4)]).build(), Err(Refusal::WrongSet));
    /// assert_eq!(round.above_terms(Bidder(3), [Bidder(3)]).build(), Err(Refusal::RivalIsOwner));
    /// # Ok::<(), Refusal>(())
    /// ```
    pub fn above_terms(mut self, owner: Bidder, rivals: impl IntoIterator<Item = Bidder>) -> SheetBuilder {
        self.constraints.push(Given::Above { owner, rivals: rivals.into_iter().collect() });
        self
    }

    /// The sheet, or the library's refusal: that of the first top-of-page terms or rivals that it refuses, else that of the sheet.
    pub fn build(self) -> Result<Sheet, Refusal> {
        let constraints = self.written_constraints()?;
        let bytes = self.bytes_with(&constraints, constraints.len());
        calls::check(&bytes)?;
        Ok(Sheet { bytes })
    }

    /// The sheet's bytes, not checked. A count that is too large for its field is written as the field's largest number, which is above
    /// the limit of the count, so that the library refuses it with the count's own number. Top-of-page terms or rivals that the library refuses give
    /// no constraints to write: then none is written, and their count is that largest number too, so that no such bytes are accepted.
    pub fn bytes(&self) -> Vec<u8> {
        match self.written_constraints() {
            Ok(constraints) => self.bytes_with(&constraints, constraints.len()),
            Err(_) => self.bytes_with(&[], usize::MAX),
        }
    }

    /// The sheet's bytes with these constraints and this for their count.
    fn bytes_with(&self, constraints: &[[u8; 4]], count: usize) -> Vec<u8> {
        let mut bytes = Vec::with_capacity(HEADER + TICK + 4 * (self.effects.len() + self.bids.len() + constraints.len()));
        bytes.extend(b"PAS");
        let version: u16 = if self.tick.is_some() { 2 } else { 1 };
        bytes.extend(version.to_le_bytes());
        bytes.push(u8::try_from(self.bids.len()).unwrap_or(u8::MAX));
        bytes.push(u8::try_from(self.effects.len()).unwrap_or(u8::MAX));
        bytes.extend(u16::try_from(count).unwrap_or(u16::MAX).to_le_bytes());
        bytes.extend(self.tick.iter().flat_map(|tick| tick.to_le_bytes()));
        bytes.extend(self.effects.iter().flat_map(|effect| effect.to_le_bytes()));
        bytes.extend(self.bids.iter().flat_map(|bid| bid.to_le_bytes()));
        bytes.extend(constraints.iter().flatten());
        bytes
    }

    /// The constraints as the sheet has them: as they came in version 1; in order, each once, in version 2. Or the refusal of the first terms or
    /// rivals that are refused.
    fn written_constraints(&self) -> Result<Vec<[u8; 4]>, Refusal> {
        let (bidders, slots) = (self.bids.len(), self.effects.len());
        let mut written = Vec::with_capacity(self.constraints.len());
        for given in &self.constraints {
            let constraints = match given {
                Given::Constraint(constraint) => {
                    written.push(constraint.bytes());
                    continue;
                }
                Given::Terms { owner, limit, bars } => calls::slot_terms(bidders, slots, *owner, *limit, bars)?,
                Given::Above { owner, rivals } => calls::above_terms(bidders, slots, *owner, rivals)?,
            };
            written.extend(constraints.into_iter().map(Constraint::bytes));
        }
        if self.tick.is_some() {
            written.sort_unstable();
            written.dedup();
        }
        Ok(written)
    }
}
