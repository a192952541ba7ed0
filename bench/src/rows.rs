//! The lines of the table.

use crate::work::{Call, Row};
use independent::random::{Floors, Manner, Sets, Size};

const QUICK_CALLS: [Call; 4] = [Call::Check, Call::Play, Call::Downward, Call::Gain];
const NONE: Floors = Floors::Zero;

const fn size(bidders: usize, slots: usize, constraints: usize) -> Size {
    Size { bidders, slots, constraints }
}

/// Five sizes; the smallest is round H's.
const SIZES: [Size; 5] = [size(4, 3, 9), size(8, 4, 16), size(16, 8, 128), size(32, 12, 512), LARGEST];
const LARGEST: Size = size(64, 16, 1024);

/// All lines, part by part.
pub fn rows() -> Vec<Row> {
    let mut rows = sizes("sizes", None);
    rows.extend(kinds());
    rows.extend(best_sizes("sizes", None));
    rows.extend(best_kinds());
    rows.extend(growth());
    rows.extend(sizes("version 2", TICK));
    rows.extend(best_sizes("version 2", TICK));
    rows.extend(owner_parts());
    rows.extend(with_floors("floors 0", None, Floors::Zero));
    rows.extend(with_floors("floors any", None, Floors::Any));
    rows.extend(with_floors("floors above", None, Floors::Above));
    rows.extend(with_floors("floors, v. 2", TICK, Floors::OffTick));
    rows.extend(canonical());
    rows.extend(slot_terms());
    rows.extend(above_terms());
    rows.extend(sharing());
    rows.extend(loss());
    rows
}

/// The second forms on the rounds that the first forms have above, and play with many bidders and few constraints.
fn with_floors(part: &'static str, tick: Option<u32>, floors: Floors) -> Vec<Row> {
    let few =
        [0, 256].map(|constraints| Row { part, call: Call::Play, size: size(64, 8, constraints), manner: Manner::Pairs, tick, floors });
    let first = sizes(part, tick).into_iter().chain(few).chain(best_sizes(part, tick));
    let second = |call| [Call::PlayFloors, Call::GainFloors, Call::BestFloors].into_iter().find(|second| second.first_form() == Some(call));
    first.filter_map(|row| Some(Row { call: second(row.call)?, floors, ..row })).collect()
}

/// The tick of the rows of version 2. Their constraints are in order and none repeats, so they are not the rounds of version 1.
const TICK: Option<u32> = Some(10);

/// The quick calls on sheets of five sizes.
fn sizes(part: &'static str, tick: Option<u32>) -> Vec<Row> {
    let of_call = |call| SIZES.map(|size| Row { part, call, size, manner: Manner::Mixed, tick, floors: NONE });
    QUICK_CALLS.into_iter().flat_map(of_call).collect()
}

/// A bidder's part with the constraints growing, and the check of the same sheets: how much the part costs besides.
fn owner_parts() -> Vec<Row> {
    let row = |call, constraints| Row {
        part: "owner's part",
        call,
        size: size(64, 16, constraints),
        manner: Manner::Mixed,
        tick: TICK,
        floors: NONE,
    };
    [16, 64, 256, 1024].into_iter().flat_map(|constraints| [Call::Check, Call::Part].map(|call| row(call, constraints))).collect()
}

/// The canonical sheet, by size in version 1, by kind of constraint on the largest sheets, and by size in version 2, where it is a copy. Only the chain's
/// constraints are drawn in order.
fn canonical() -> Vec<Row> {
    let row = |part, size, manner, tick| Row { part, call: Call::Canonical, size, manner, tick, floors: NONE };
    let of_kind = |manner| row("kinds", LARGEST, manner, None);
    let mut rows = SIZES.map(|size| row("sizes", size, Manner::Mixed, None)).to_vec();
    rows.extend(KINDS.map(of_kind));
    rows.extend(SIZES.map(|size| row("version 2", size, Manner::Mixed, TICK)));
    rows
}

/// Top-of-page terms that give few constraints and many, and the largest list.
fn slot_terms() -> Vec<Row> {
    let row = |part, size| Row { part, call: Call::SlotTerms, size, manner: Manner::Mixed, tick: None, floors: NONE };
    let few = [size(4, 3, 3), size(8, 4, 8), size(64, 16, 64)].map(|size| row("few terms", size));
    let many = [size(8, 4, 24), size(64, 16, 512)].map(|size| row("many terms", size));
    few.into_iter().chain(many).chain([row("largest", size(64, 16, 1023))]).collect()
}

/// Terms by few rivals and by many, and the longest list.
fn above_terms() -> Vec<Row> {
    let row = |part, size| Row { part, call: Call::AboveTerms, size, manner: Manner::Mixed, tick: None, floors: NONE };
    // A rival gives 3 constraints with 3 slots, 6 with 4, 28 with 8, 78 with 13 and 120 with 16.
    let few = [size(4, 3, 3), size(8, 4, 12), size(64, 16, 120), size(64, 16, 360)].map(|size| row("few rivals", size));
    let many = [size(64, 2, 63), size(8, 8, 196), size(64, 16, 960)].map(|size| row("many rivals", size));
    few.into_iter().chain(many).chain([row("longest list", size(64, 13, 1014))]).collect()
}

/// Groups that can share a page, with empty, small and full rival sets and with the longest, and that cannot, by a circle that is found last; each also against reading
/// the sets alone.
fn sharing() -> Vec<Row> {
    let few = [Sets::Few, Sets::Circle, Sets::Full].map(|sets| (size(8, 4, 4), sets));
    let many = [Sets::Empty, Sets::Few, Sets::Circle, Sets::Full, Sets::Longest].map(|sets| (size(64, 16, 16), sets));
    let row = |call, size| Row { part: "members", call, size, manner: Manner::Mixed, tick: None, floors: NONE };
    let both = |(size, sets)| [row(Call::Share(sets), size), row(Call::ShareToRead(sets), size)];
    few.into_iter().chain([(size(64, 16, 4), Sets::Few)]).chain(many).flat_map(both).collect()
}

/// The bound on the loss: where all lists come from rivals, in version 1 in order (of chains too, round H's first) and in any order, and in version 2; and where not,
/// as is seen at once or last.
fn loss() -> Vec<Row> {
    let row = |part, size, manner, tick| Row { part, call: Call::Loss, size, manner, tick, floors: NONE };
    // With 4 slots a rival gives 6 constraints, with 16 slots 120, with 2 slots one.
    let sizes = [size(8, 4, 12), size(64, 16, 960), size(64, 2, 1024)];
    let chains = [size(4, 3, 9), size(64, 16, 960)].map(|size| row("in order", size, Manner::Chain, None));
    let in_order = sizes.map(|size| row("in order", size, Manner::Rivals, None));
    let shuffled = sizes.map(|size| row("any order", size, Manner::RivalsShuffled, None));
    let ticked = sizes.map(|size| row("version 2", size, Manner::Rivals, TICK));
    let lacking = sizes[..2].iter().map(|&size| row("other lists", size, Manner::RivalsLacking, None));
    let others = [Manner::Mixed, Manner::Pairs].map(|manner| row("other lists", LARGEST, manner, None));
    let ticked_others = row("version 2", LARGEST, Manner::Mixed, TICK);
    chains.into_iter().chain(in_order).chain(shuffled).chain(ticked).chain(lacking).chain(others).chain([ticked_others]).collect()
}

/// Kinds of constraint beside the mixed ones.
const KINDS: [Manner; 4] = [Manner::Pairs, Manner::OwnSlots, Manner::Exclusions, Manner::Chain];

/// Play and downward on the largest sheets, by kind of constraint.
fn kinds() -> Vec<Row> {
    let of_call = |call| KINDS.map(|manner| Row { part: "kinds", call, size: LARGEST, manner, tick: None, floors: NONE });
    [Call::Play, Call::Downward].into_iter().flat_map(of_call).collect()
}

/// The best page by size, with pairs.
fn best_sizes(part: &'static str, tick: Option<u32>) -> Vec<Row> {
    let sizes = [size(4, 4, 8), size(6, 6, 24), size(8, 8, 0), size(8, 8, 64), size(8, 8, 512), size(8, 8, 1024)];
    sizes.map(|size| Row { part, call: Call::Best, size, manner: Manner::Pairs, tick, floors: NONE }).to_vec()
}

/// The best page by kind of constraint. 196 constraints are the whole chain of 8 bidders in 8 slots; an exclusion is 8 constraints.
fn best_kinds() -> Vec<Row> {
    let row =
        |constraints, manner| Row { part: "kinds", call: Call::Best, size: size(8, 8, constraints), manner, tick: None, floors: NONE };
    let mut rows = vec![row(64, Manner::Mixed), row(24, Manner::OwnSlots), row(64, Manner::Exclusions), row(196, Manner::Chain)];
    rows.extend([24, 64, 96].map(|constraints| row(constraints, Manner::Ties)));
    rows
}

/// Play, then the best page, with one of n, m and c growing and the others fixed.
fn growth() -> Vec<Row> {
    let grow = |part, call, sizes: [Size; 4]| sizes.map(|size| Row { part, call, size, manner: Manner::Pairs, tick: None, floors: NONE });
    let mut rows = Vec::new();
    rows.extend(grow("grows with n", Call::Play, [8, 16, 32, 64].map(|n| size(n, 8, 256))));
    rows.extend(grow("grows with m", Call::Play, [2, 4, 8, 16].map(|m| size(32, m, 256))));
    rows.extend(grow("grows with c", Call::Play, [0, 64, 256, 1024].map(|c| size(32, 8, c))));
    rows.extend(grow("grows with c", Call::Check, [0, 64, 256, 1024].map(|c| size(32, 8, c))));
    rows.extend(grow("grows with n", Call::Best, [2, 4, 6, 8].map(|n| size(n, 8, 64))));
    rows.extend(grow("grows with m", Call::Best, [2, 4, 6, 8].map(|m| size(8, m, 64))));
    rows.extend(grow("grows with c", Call::Best, [16, 128, 256, 1024].map(|c| size(8, 8, c))));
    rows
}
