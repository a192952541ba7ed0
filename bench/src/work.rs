//! What is measured: a call on sheets of one size and one manner, by either engine.

use independent::random::{floors, group, in_ticks, rivals_of_size, round, terms_of_size, Floors, Manner, Random, Sets, Size};
use independent::slow::{Group, Rivals, Round, Terms};
use independent::{engine, slow};
use pas::raw;
use std::hint::black_box;

/// The five calls of document 01, and of document 02 the part, the second forms, with floors, the canonical sheet, the top-of-page terms, the terms by rivals,
/// sharing and the bound on the loss.
#[derive(Clone, Copy, Debug, PartialEq)]
pub enum Call {
    Check,
    Play,
    Downward,
    Gain,
    Best,
    Part,
    PlayFloors,
    GainFloors,
    BestFloors,
    Canonical,
    SlotTerms,
    AboveTerms,
    Share(Sets),
    /// Sharing by the library, and reading the rival sets alone by the Rust engine: how many readings a call costs.
    ShareToRead(Sets),
    Loss,
}

impl Call {
    /// The call in words, for a table.
    pub fn name(self) -> &'static str {
        match self {
            Call::Check => "check",
            Call::Play => "play",
            Call::Downward => "downward",
            Call::Gain => "gain",
            Call::Best => "best",
            Call::Part => "part",
            Call::PlayFloors => "play floors",
            Call::GainFloors => "gain floors",
            Call::BestFloors => "best floors",
            Call::Canonical => "canonical",
            Call::SlotTerms => "slot terms",
            Call::AboveTerms => "above terms",
            Call::Share(_) => "share",
            Call::ShareToRead(_) => "share, read",
            Call::Loss => "loss bound",
        }
    }

    /// Of a second form, the first.
    pub fn first_form(self) -> Option<Call> {
        match self {
            Call::PlayFloors => Some(Call::Play),
            Call::GainFloors => Some(Call::Gain),
            Call::BestFloors => Some(Call::Best),
            _ => None,
        }
    }
}

/// Who answers.
#[derive(Clone, Copy, Debug, PartialEq)]
pub enum Engine {
    Library,
    Rust,
}

/// One line of the table. Of top-of-page terms and of terms by rivals the size is how many constraints they give, for so many bidders and slots; of sharing, how
/// many members there are.
#[derive(Clone, Copy)]
pub struct Row {
    pub part: &'static str,
    pub call: Call,
    pub size: Size,
    pub manner: Manner,
    /// None for sheets of version 1.
    pub tick: Option<u32>,
    /// What the floors are like, where the call takes some.
    pub floors: Floors,
}

impl Row {
    /// The kind of constraints in words, for a table.
    pub fn kind(&self) -> &'static str {
        match self.call {
            Call::SlotTerms => "terms",
            Call::AboveTerms => "rivals",
            Call::Share(sets) | Call::ShareToRead(sets) => sets.name(),
            _ => self.manner.name(),
        }
    }

    /// About how many numbers an input has.
    pub fn entries(&self) -> usize {
        let size = self.size;
        let in_sets = match self.call {
            Call::Share(Sets::Longest) | Call::ShareToRead(Sets::Longest) => 64 * size.bidders,
            Call::Share(Sets::Full) | Call::ShareToRead(Sets::Full) => size.bidders * size.bidders / 4,
            _ => 0,
        };
        size.bidders + size.slots + size.constraints + in_sets
    }
}

/// One call's input: a sheet and, for the calls that take them, floors, a bidder, a worth, a truth sheet, top-of-page terms, rivals and members.
pub struct Input {
    sheet: Vec<u8>,
    floors: Vec<u32>,
    truth: Vec<u8>,
    bidder: u32,
    worth: u32,
    terms: Terms,
    rivals: Rivals,
    group: Group,
}

/// The inputs of a row, from a fixed seed, so that all runs measure the same. Floors, terms and sets have a seed of their own: with them a row has the rounds
/// that it has without.
pub fn inputs(row: &Row, count: usize) -> Vec<Input> {
    let (mut random, mut of_lent) = (Random::seeded(2026), Random::seeded(7));
    (0..count).map(|_| input(&mut random, &mut of_lent, row)).collect()
}

/// A round of a row. Repeats, which version 2 does not have, are drawn anew.
fn drawn(random: &mut Random, row: &Row) -> Round {
    let mut drawn = in_ticks(round(random, row.size, row.manner, 1_000_000_000, 1_000_000), row.tick);
    while drawn.constraints.len() < row.size.constraints {
        let missing = Size { constraints: row.size.constraints - drawn.constraints.len(), ..row.size };
        drawn.constraints.extend(round(random, missing, row.manner, 0, 1).constraints);
        drawn = in_ticks(drawn, row.tick);
    }
    drawn
}

fn input(random: &mut Random, of_lent: &mut Random, row: &Row) -> Input {
    let (played, truth) = (drawn(random, row), drawn(random, row));
    let floors = floors(of_lent, &played, row.floors);
    let (sheet, truth) = (slow::sheet(&played), slow::sheet(&truth));
    let mut page = [0; 80];
    assert_eq!(engine::play_floors(&sheet, &floors, &mut page), 0, "measured sheets are good");
    // A bidder with a slot, so that a gain is worked out and not just 0.
    let winners: Vec<u8> = page.chunks_exact(5).map(|slot| slot[0]).filter(|&bidder| bidder > 0).collect();
    let pick = random.number() as usize;
    let bidder = if winners.is_empty() { 1 } else { winners[pick % winners.len()] };
    // Only the row of terms has a size that terms can have.
    let terms = match row.call {
        Call::SlotTerms => terms_of_size(of_lent, row.size),
        _ => Terms { bidders: 0, slots: 0, owner: 0, limit: 0, bars: Vec::new() },
    };
    let (rivals, group) = (rivals_of(of_lent, row), group_of(of_lent, row));
    Input { sheet, floors, truth, bidder: u32::from(bidder), worth: random.between(0, 1_000_000_000) as u32, terms, rivals, group }
}

/// The rivals of a row: so many that they give its constraints.
fn rivals_of(random: &mut Random, row: &Row) -> Rivals {
    let Size { bidders, slots, constraints } = row.size;
    match row.call {
        Call::AboveTerms => rivals_of_size(random, bidders, slots, constraints / (slots * (slots - 1) / 2)),
        _ => Rivals { bidders: 0, slots: 0, owner: 0, rivals: Vec::new() },
    }
}

/// The members of a row and the rival sets of all.
fn group_of(random: &mut Random, row: &Row) -> Group {
    let Size { bidders, slots, constraints: members } = row.size;
    match row.call {
        Call::Share(sets) | Call::ShareToRead(sets) => group(random, bidders, slots, members, sets),
        _ => Group { bidders: 0, slots: 0, members: Vec::new(), rival_sets: Vec::new() },
    }
}

/// The bytes of the longest sheet.
const LONGEST: usize = 4429;

/// Answers every input once.
pub fn answer(engine: Engine, call: Call, inputs: &[Input]) {
    let mut room = [0; LONGEST];
    for input in inputs {
        match engine {
            Engine::Library => answer_by_library(call, input, &mut room),
            Engine::Rust => answer_by_rust(call, input, &mut room),
        }
    }
}

#[inline(never)]
fn answer_by_library(call: Call, input: &Input, room: &mut [u8]) {
    let sheet = black_box(&input.sheet[..]);
    let (mut result, mut answer, mut gain, mut total) = ([0; 80], 0, 0, 0);
    let (mut start, mut length) = (0, 0);
    let number = match call {
        Call::Check => raw::check(sheet),
        Call::Play => raw::play(sheet, &mut result),
        Call::Downward => raw::downward(sheet, input.bidder, &mut answer),
        Call::Gain => raw::gain(sheet, &input.truth, input.bidder, input.worth, &mut gain),
        Call::Best => raw::best(sheet, &mut result, &mut total),
        Call::Part => raw::owner_part(sheet, input.bidder, &mut start, &mut length),
        Call::PlayFloors => raw::play_floors(sheet, &input.floors, &mut result),
        Call::GainFloors => raw::gain_floors(sheet, &input.floors, &input.truth, input.bidder, input.worth, &mut gain),
        Call::BestFloors => raw::best_floors(sheet, &input.floors, &mut result, &mut total),
        Call::Canonical => canonical(sheet, room, raw::canonical),
        Call::SlotTerms => slot_terms(&input.terms, room, raw::slot_terms),
        Call::AboveTerms => above_terms(&input.rivals, room, raw::above_terms),
        Call::Share(_) | Call::ShareToRead(_) => share_page(&input.group, room, raw::share_page),
        Call::Loss => loss_bound(sheet, raw::loss_bound),
    };
    black_box((number, &result, answer, gain, total, start, length));
}

/// Apart, so that no other call pays for what this one keeps on the stack, and to a buffer that is made before.
#[inline(never)]
fn canonical(sheet: &[u8], room: &mut [u8], call: impl Fn(&[u8], &mut [u8], &mut usize) -> u32) -> u32 {
    let mut written = 0;
    let number = call(sheet, room, &mut written);
    black_box((room, written));
    number
}

/// Apart for the same reason, and to the same buffer.
#[inline(never)]
fn slot_terms(of: &Terms, room: &mut [u8], call: impl Fn(u32, u32, u32, u32, &[u8], &mut [u8], &mut u32) -> u32) -> u32 {
    let (of, mut count) = (black_box(of), 0);
    let number = call(of.bidders, of.slots, of.owner, of.limit, &of.bars, room, &mut count);
    black_box((room, count));
    number
}

/// The same for rivals.
#[inline(never)]
fn above_terms(of: &Rivals, room: &mut [u8], call: impl Fn(u32, u32, u32, &[u8], &mut [u8], &mut u32) -> u32) -> u32 {
    let (of, mut count) = (black_box(of), 0);
    let number = call(of.bidders, of.slots, of.owner, &of.rivals, room, &mut count);
    black_box((room, count));
    number
}

/// The same for members.
#[inline(never)]
fn share_page(of: &Group, room: &mut [u8], call: impl Fn(u32, u32, &[u8], &[u8], &mut [u8], &mut u8) -> u32) -> u32 {
    let (of, mut answer) = (black_box(of), 0);
    let number = call(of.bidders, of.slots, &of.members, &of.rival_sets, room, &mut answer);
    black_box((room, answer));
    number
}

/// The rival sets of all bidders are validated and put into words, and that is all.
#[inline(never)]
fn read_rival_sets(of: &Group) -> u32 {
    let (of, mut words) = (black_box(of), [0; 64]);
    let number = engine::read_rival_sets(of.bidders, &of.rival_sets, &mut words);
    black_box(&words);
    number
}

/// Apart as the others are.
#[inline(never)]
fn loss_bound(sheet: &[u8], call: impl Fn(&[u8], &mut u32) -> u32) -> u32 {
    let mut factor = 0;
    let number = call(sheet, &mut factor);
    black_box(factor);
    number
}

#[inline(never)]
fn answer_by_rust(call: Call, input: &Input, room: &mut [u8]) {
    let sheet = black_box(&input.sheet[..]);
    let (mut result, mut answer, mut gain, mut total) = ([0; 80], 0, 0, 0);
    let (mut start, mut length) = (0, 0);
    let number = match call {
        Call::Check => engine::check(sheet),
        Call::Play => engine::play(sheet, &mut result),
        Call::Downward => engine::downward(sheet, input.bidder, &mut answer),
        Call::Gain => engine::gain(sheet, &input.truth, input.bidder, input.worth, &mut gain),
        Call::Best => engine::best(sheet, &mut result, &mut total),
        Call::Part => engine::owner_part(sheet, input.bidder, &mut start, &mut length),
        Call::PlayFloors => engine::play_floors(sheet, &input.floors, &mut result),
        Call::GainFloors => engine::gain_floors(sheet, &input.floors, &input.truth, input.bidder, input.worth, &mut gain),
        Call::BestFloors => engine::best_floors(sheet, &input.floors, &mut result, &mut total),
        Call::Canonical => canonical(sheet, room, engine::canonical),
        Call::SlotTerms => slot_terms(&input.terms, room, engine::slot_terms),
        Call::AboveTerms => above_terms(&input.rivals, room, engine::above_terms),
        Call::Share(_) => share_page(&input.group, room, engine::share_page),
        Call::ShareToRead(_) => read_rival_sets(&input.group),
        Call::Loss => loss_bound(sheet, engine::loss_bound),
    };
    black_box((number, &result, answer, gain, total, start, length));
}
