//! The proved library against an independent Rust engine, one table. Both get the same unchecked bytes and write the same bytes.
//!
//! Without a word it measures time; `instructions` counts instructions with perf or valgrind, whichever the machine has.

#![forbid(unsafe_code)]

mod instructions;
mod rows;
mod timing;
mod work;

use std::process::ExitCode;
use timing::Spread;
use work::{Call, Row};

fn main() -> ExitCode {
    let words: Vec<String> = std::env::args().skip(1).collect();
    let words: Vec<&str> = words.iter().map(String::as_str).collect();
    match words[..] {
        [] => show_times(),
        ["instructions"] => return instructions::show(&rows::rows()),
        [instructions::ONLY, engine, row, passes] => instructions::run_only(&rows::rows(), engine, row, passes),
        _ => {
            eprintln!("usage: bench/run [instructions]");
            return ExitCode::FAILURE;
        }
    }
    ExitCode::SUCCESS
}

/// What a row is about: part, call, size and kind, as the first columns of a table.
fn title(part: &str, row: &Row) -> String {
    let (call, kind) = (row.call.name(), row.kind());
    let size = row.size;
    format!("| {part:<13} | {call:<11} | {:>2} | {:>2} | {:>4} | {kind:<10} |", size.bidders, size.slots, size.constraints)
}

/// The heads of those columns, and the rules below them.
const TITLES: &str = "| part          | call        |  n |  m |    c | kind       |";
const RULES: &str = "|---------------|-------------|---:|---:|-----:|------------|";

fn show_times() {
    println!("{TITLES} library, ns (quartiles)       | Rust, ns (quartiles)         | library / Rust | library / itself | with floors / without |");
    println!("{RULES}------------------------------:|-----------------------------:|---------------:|-----------------:|----------------------:|");
    for row in rows::rows() {
        let times = timing::measure(&row);
        let shown = |of: Spread| format!("{:.0} ({:.0} to {:.0})", of.median, of.lower, of.upper);
        let ratio = times.library.median / times.rust.median;
        let noise = times.again.median / times.library.median;
        let floors = times.first_form.map_or(String::new(), |first| format!("{:.2}", times.library.median / first.median));
        let (library, rust) = (shown(times.library), shown(times.rust));
        println!("{} {library:>29} | {rust:>28} | {ratio:>14.2} | {noise:>16.2} | {floors:>21} |", title(row.part, &row));
    }
    for row in rows::rows().iter().filter(|row| row.call == Call::Best && row.tick.is_none() && !row.part.starts_with("grows")) {
        let [library, rust] = timing::slowest(row);
        let ratio = library / rust;
        println!("{} {library:>29.0} | {rust:>28.0} | {ratio:>14.2} | {:>16} | {:>21} |", title("slowest of 2k", row), "", "");
    }
}
