//! Times by the clock. The engines take turns of a fraction of a millisecond, so that what disturbs the machine disturbs few turns and
//! both engines alike.

use crate::work::{answer, inputs, Call, Engine, Input, Row};
use std::time::{Duration, Instant};

const REPETITIONS: usize = 21;
/// How often each of the sheets is timed of which the slowest is shown.
const GOES: usize = 9;
/// A turn lasts about this long, or one call if that is longer.
const TURN: Duration = Duration::from_micros(150);

/// The middle of some measurements and the quarters on both sides.
#[derive(Clone, Copy, Default)]
pub struct Spread {
    pub lower: f64,
    pub median: f64,
    pub upper: f64,
}

impl Spread {
    fn of(mut measured: Vec<f64>) -> Spread {
        measured.sort_unstable_by(f64::total_cmp);
        let at = |quarter: usize| measured[quarter * (measured.len() - 1) / 4];
        Spread { lower: at(1), median: at(2), upper: at(3) }
    }

    fn add(&mut self, other: Spread, share: f64) {
        self.lower += share * other.lower;
        self.median += share * other.median;
        self.upper += share * other.upper;
    }
}

/// Nanoseconds a call.
pub struct Times {
    pub library: Spread,
    pub rust: Spread,
    /// The library measured a second time: what noise alone makes of equal work.
    pub again: Spread,
    /// Of a second form, the library's first form on the same sheets.
    pub first_form: Option<Spread>,
}

/// How many sheets a row is measured on: so many that no engine's branches are learnt by heart from one repetition to the next.
fn sheets(row: &Row) -> usize {
    (65_536 / row.entries()).clamp(64, 1024)
}

/// Measures one row. The sheets are split into groups of a turn each, and a repetition goes through all groups, first with the library,
/// then with the Rust engine, then with the library again, and where the call takes floors with the library's call without. A group's time is
/// the median of its repetitions, and the row's time is the mean over its sheets.
pub fn measure(row: &Row) -> Times {
    let inputs = inputs(row, sheets(row));
    let in_a_turn = (TURN.as_nanos() as f64 / calibrate(row, &inputs)).max(1.0) as usize;
    let groups: Vec<&[Input]> = inputs.chunks(in_a_turn).collect();
    let mut turns = vec![(Engine::Library, row.call), (Engine::Rust, row.call), (Engine::Library, row.call)];
    turns.extend(row.call.first_form().map(|first| (Engine::Library, first)));
    let mut measured = vec![vec![Vec::new(); groups.len()]; turns.len()];
    for _ in 0..REPETITIONS {
        for (&(engine, call), of_groups) in turns.iter().zip(&mut measured) {
            for (group, times) in groups.iter().zip(of_groups) {
                times.push(turn(engine, call, group));
            }
        }
    }
    let mut means = measured.into_iter().map(|of_groups| mean(&groups, of_groups));
    let mut next = || means.next();
    let (library, rust, again) = (next().expect("a turn"), next().expect("a turn"), next().expect("a turn"));
    Times { library, rust, again, first_form: next() }
}

/// Nanoseconds a call in one turn.
fn turn(engine: Engine, call: Call, group: &[Input]) -> f64 {
    let start = Instant::now();
    answer(engine, call, group);
    start.elapsed().as_nanos() as f64 / group.len() as f64
}

/// The mean over the sheets of what their groups took.
fn mean(groups: &[&[Input]], turns: Vec<Vec<f64>>) -> Spread {
    let sheets: usize = groups.iter().map(|group| group.len()).sum();
    let mut mean = Spread::default();
    for (group, turns) in groups.iter().zip(turns) {
        mean.add(Spread::of(turns), group.len() as f64 / sheets as f64);
    }
    mean
}

/// About how long a call of the library takes, in nanoseconds; both engines are warm then.
fn calibrate(row: &Row, inputs: &[Input]) -> f64 {
    answer(Engine::Rust, row.call, inputs);
    (0..3).map(|_| turn(Engine::Library, row.call, inputs)).fold(f64::INFINITY, f64::min)
}

/// The longest that one sheet of a row takes with the library and with the Rust engine, of many sheets, in nanoseconds. A sheet's time is
/// its quickest of several goes. The goes lie far apart, each a pass over all sheets, so that it is the sheet that is slow and not the machine.
pub fn slowest(row: &Row) -> [f64; 2] {
    let inputs = inputs(row, 2000);
    let engines = [Engine::Library, Engine::Rust];
    let mut quickest = engines.map(|_| vec![f64::INFINITY; inputs.len()]);
    for _ in 0..GOES {
        for (engine, of_sheets) in engines.iter().zip(&mut quickest) {
            for (input, best) in inputs.iter().zip(of_sheets) {
                *best = best.min(turn(*engine, row.call, std::slice::from_ref(input)));
            }
        }
    }
    quickest.map(|of_sheets| of_sheets.into_iter().fold(0.0, f64::max))
}
