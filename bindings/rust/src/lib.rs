//! Position auctions with bidders' conditions: a safe wrapper of the proved library `libpas`.
//!
//! A page has slots from the top down, each with an effect. Bidders bid per click and set constraints: slots where they will not stand,
//! and bidders beside whom they will not stand. The library fills the page, charges each winner the smallest bid with which it would still
//! have won its slot, tells whether a bidder's list is downward monotonic, works out what a bidder gains, finds the best page of a
//! small round, shows where in a sheet one bidder's constraints stand, writes the one sheet of version 2 for a round, writes a bidder's
//! constraints from its top-of-page terms or from the rivals that it will only stand above, tells whether bidders with such rivals could share a page, and tells
//! how far below the best their page can be. Page, gain and best page are there with a floor under each slot too. Its answers are proved, refusals included;
//! this crate adds types and no judgement of its own (but that [`rival_sets`] refuses a set of more than 255 numbers, for which the layout has no length byte).
//!
//! The C header `include/pas.h` is the manual: the sheet's layout, the limits, what each call means. It says "place" for a slot and
//! "condition" for a constraint, and so do the sentences of a [`Refusal`]; `docs/EMBEDDING.md` of the repository has the table of words.
//!
//! Build it with `cargo build`. It links `target/staticlib/libpas.a` of the repository, which the build has `./build-library` prove and
//! write where it is missing or older than a source, or the archive in the folder that the environment variable `PAS_LIB_DIR` names. It
//! needs the standard library only.
//!
//! Bidder 1 wants to stand above 2, 2 above 3 and 3 above 4, while the bids rise (round H of the repository's `sheets/`):
//!
//! ```
//! use pas::{Bidder, Kind, Refusal, SheetBuilder, Slot};
//!
//! let mut round = SheetBuilder::new().effects([10_000, 4_500, 2_025]).bids([30, 32, 36, 40]);
//! for upper in 1..=3 {
//!     for (own, above) in [(2, 1), (3, 1), (3, 2)] {
//!         let kind = Kind::Pair { own: Slot(own), other: Bidder(upper + 1), slot: Slot(above) };
//!         round = round.constraint(Bidder(upper), kind);
//!     }
//! }
//! let sheet = round.build()?;
//!
//! let page = sheet.play();
//! assert_eq!(page.bidders(), [Some(Bidder(4)), Some(Bidder(2)), None]);
//! assert_eq!(page.prices(), [37, 31, 0]);
//!
//! let best = sheet.best_page()?;
//! assert_eq!(best.bidders, [Some(Bidder(3)), Some(Bidder(4)), Some(Bidder(1))]);
//! assert_eq!(best.total, 600_750);
//!
//! assert!(sheet.is_downward(Bidder(1))?);
//! assert_eq!(sheet.gain(&sheet, Bidder(4), 40)?, 30_000);
//! assert_eq!(sheet.bids(), [30, 32, 36, 40]);
//! assert_eq!(pas::check(b"PAS"), Err(Refusal::SheetTooShort));
//! # Ok::<(), Refusal>(())
//! ```
//!
//! Where bids go in steps, the sheet has a tick, and prices go in the same steps (round F2, whose winner pays one tick more than a rival with
//! a lower number):
//!
//! ```
//! use pas::{Bidder, Refusal, SheetBuilder};
//!
//! let sheet = SheetBuilder::new().tick(3).effects([1]).bids([3, 6]).build()?;
//! let page = sheet.play();
//! assert_eq!((page.bidders(), page.prices()), (vec![Some(Bidder(2))], vec![6]));
//!
//! let between = SheetBuilder::new().tick(3).effects([1]).bids([5, 6]);
//! assert_eq!(between.build(), Err(Refusal::BidOffTick));
//! # Ok::<(), Refusal>(())
//! ```
//!
//! In such a sheet, of version 2, the constraints stand in order, so that those of one bidder are a part of its bytes:
//!
//! ```
//! use pas::{Bidder, Kind, Refusal, SheetBuilder, Slot};
//!
//! let (own, other) = (Kind::OwnSlot(Slot(2)), Kind::OtherSlot { other: Bidder(3), slot: Slot(1) });
//! let terms = SheetBuilder::new().tick(1).effects([2, 1]).bids([5, 6, 7]);
//! let sheet = terms.constraint(Bidder(2), own).constraint(Bidder(1), own).constraint(Bidder(2), other).build()?;
//!
//! let part = sheet.owner_part(Bidder(2))?;
//! assert_eq!(part.as_bytes(), [2, 0, 3, 1, 2, 2, 0, 0]);
//! assert_eq!(part.constraints().map(|constraint| constraint.kind).collect::<Vec<_>>(), [other, own]);
//! assert_eq!(part.as_bytes().as_ptr(), sheet.as_bytes()[part.start()..].as_ptr());
//! # Ok::<(), Refusal>(())
//! ```
//!
//! A sheet of version 1 may have its constraints in any order and more than once, so that one round has many sheets. Its canonical form is the one of
//! version 2; two rounds are the same exactly where these are equal:
//!
//! ```
//! use pas::{Bidder, Kind, Refusal, SheetBuilder, Slot};
//!
//! let (own, other) = (Kind::OwnSlot(Slot(2)), Kind::OtherSlot { other: Bidder(1), slot: Slot(1) });
//! let terms = SheetBuilder::new().effects([2, 1]).bids([5, 6]);
//! let one = terms.clone().constraint(Bidder(2), own).constraint(Bidder(2), other).constraint(Bidder(2), own).build()?;
//! let two = terms.clone().constraint(Bidder(2), other).constraint(Bidder(2), own).build()?;
//! let less = terms.constraint(Bidder(2), own).build()?;
//!
//! assert!(one != two && one.same_round(&two) && !one.same_round(&less));
//! let canonical = one.canonical();
//! assert_eq!(canonical, two.canonical());
//! assert_eq!((canonical.version(), canonical.tick(), canonical.constraints()), (2, 1, 2));
//! assert_eq!(canonical.canonical(), canonical);
//! assert_eq!(canonical.play(), one.play());
//! # Ok::<(), Refusal>(())
//! ```
//!
//! Where some slots cost more to show, a call is lent a floor for each slot. Here the floor of slot 1 is above every bid, so that it stays empty; that of
//! slot 2 sets the price, since a bid of 36 is the smallest in ticks that reaches 34; that of slot 3 is 0 and asks nothing:
//!
//! ```
//! use pas::{Bidder, Refusal, SheetBuilder};
//!
//! let sheet = SheetBuilder::new().tick(3).effects([4, 2, 1]).bids([42, 30, 18]).build()?;
//! assert_eq!(sheet.play().prices(), [30, 18, 0]);
//!
//! let floors = [43, 34, 0];
//! let page = sheet.play_floors(&floors)?;
//! assert_eq!(page.bidders(), [None, Some(Bidder(1)), Some(Bidder(2))]);
//! assert_eq!(page.prices(), [0, 36, 18]);
//! assert_eq!(sheet.gain_floors(&floors, &sheet, Bidder(1), 42)?, 12);
//!
//! let best = sheet.best_page_floors(&floors)?;
//! assert_eq!((best.bidders, best.total), (page.bidders(), 114));
//! assert_eq!(sheet.play_floors(&[0; 3])?, sheet.play());
//! assert_eq!(sheet.play_floors(&[0; 2]), Err(Refusal::WrongFloorCount));
//! # Ok::<(), Refusal>(())
//! ```
//!
//! A buyer's terms may be two numbers: the lowest slot that it accepts, and for each other bidder how many of the top slots that one must not have. The
//! library writes the constraints, and the list is always downward monotonic. Here bidder 1 wants slot 1 or 2, and bidder 3 not at the top:
//!
//! ```
//! use pas::{Bidder, Refusal, SheetBuilder, Slot};
//!
//! let round = SheetBuilder::new().effects([4, 2, 1]).bids([10, 20, 30]);
//! let sheet = round.clone().slot_terms(Bidder(1), Slot(2), [0, 0, 1]).build()?;
//! assert_eq!(sheet.list_of(Bidder(1)), pas::slot_terms(3, 3, Bidder(1), Slot(2), &[0, 0, 1])?);
//! assert_eq!(sheet.constraints(), 2);
//! assert!(sheet.is_downward(Bidder(1))?);
//! assert_eq!(sheet.play().bidders(), [Some(Bidder(3)), Some(Bidder(2)), None]);
//!
//! assert_eq!(round.slot_terms(Bidder(1), Slot(4), [0, 0, 1]).build(), Err(Refusal::WrongLimit));
//! # Ok::<(), Refusal>(())
//! ```
//!
//! Others only want to stand above certain bidders, their rivals. The library writes the constraints here too, again a downward monotonic list, and tells
//! whether some of the bidders could share a page, and in which order. This is round H once more, and of its bidders 2, 3 and 4 could share the page:
//!
//! ```
//! use pas::{Bidder, Refusal, SheetBuilder};
//!
//! let rivals: [&[Bidder]; 4] = [&[Bidder(2)], &[Bidder(3)], &[Bidder(4)], &[]];
//! let mut round = SheetBuilder::new().effects([10_000, 4_500, 2_025]).bids([30, 32, 36, 40]);
//! for (owner, set) in (1..).map(Bidder).zip(rivals) {
//!     round = round.above_terms(owner, set.iter().copied());
//! }
//! let sheet = round.build()?;
//! assert_eq!(sheet.play().bidders(), [Some(Bidder(4)), Some(Bidder(2)), None]);
//!
//! let sets = pas::rival_sets(rivals)?;
//! let order = pas::share_page(4, 3, &[Bidder(4), Bidder(3), Bidder(2)], &sets)?;
//! assert_eq!(order, Some(vec![Bidder(2), Bidder(3), Bidder(4)]));
//!
//! // Nobody is named by more than one bidder, so that no page has more than twice the played page's total.
//! let total = 40 * 10_000 + 32 * 4_500;
//! assert_eq!(sheet.loss_bound(), Some(2));
//! assert!(2 * total >= sheet.best_page()?.total);
//! # Ok::<(), Refusal>(())
//! ```
//!
//! Every call that takes a sheet, but the check, is there twice: as a method of [`Sheet`], whose bytes the library has accepted, and as a function over bytes
//! that nobody has checked. The check makes a [`Sheet`] of bytes (`Sheet::from_bytes`), and is a function too. `play_into`, `best_into`,
//! their second forms with floors, `canonical_into`, `slot_terms_into`, `above_terms_into` and `share_page_into` write to a buffer of the caller's and allocate
//! nothing. [`raw`] has the calls with plain numbers, as in C. A [`Sheet`] can be read back: its tick, effects, bids and constraints, as the builder takes them.
//!
//! Calls may run in several threads at once. They take up to 40 KB of stack, which is measured and not proved (`PAS_STACK_PLAY` and the
//! others in the header); the library uses no more memory than that.

#![deny(missing_docs)]
#![deny(unsafe_code)]

/// The version of this crate, which is that of the library and of its C header (`PAS_VERSION`). `CHANGELOG.md` says what each brought.
pub const VERSION: &str = env!("CARGO_PKG_VERSION");

mod calls;
mod page;
mod part;
pub mod raw;
mod refusal;
mod sheet;

pub use calls::{above_terms, above_terms_into, rival_sets, share_page, share_page_into};
pub use calls::{best_floors_into, best_into, best_page, best_page_floors, play_floors, play_floors_into};
pub use calls::{canonical, canonical_into, same_round};
pub use calls::{check, gain, gain_floors, is_downward, loss_bound, owner_part, play, play_into};
pub use calls::{slot_terms, slot_terms_into};
pub use page::{BestPage, Page, Placement};
pub use part::OwnerPart;
pub use refusal::Refusal;
pub use sheet::{Bidder, Constraint, Kind, Sheet, SheetBuilder, Slot};
