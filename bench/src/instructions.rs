//! Instructions a call, counted by `perf stat` or, where the machine does not count, by valgrind. The clock and other programs do not
//! matter then.
//!
//! The program runs itself under the counter, once with some passes over the inputs and once with more: the difference is the work of
//! the calls alone.

use crate::work::{answer, inputs, Engine, Row};
use std::process::{Command, ExitCode};

/// The word with which the program runs one engine on one row and prints nothing.
pub const ONLY: &str = "only";
const LIBRARY: &str = "Library";
const RUST: &str = "Rust";
const FIRST: &str = "First";
const SHEETS: usize = 32;
const FEW: u64 = 1;
const MANY: u64 = 3;

/// Runs one engine on one row, all sheets, so many times. "First" is the library with the first form of the row's call.
pub fn run_only(rows: &[Row], engine: &str, row: &str, passes: &str) {
    let row = &rows[row.parse::<usize>().expect("a row's position")];
    let (engine, call) = match engine {
        LIBRARY => (Engine::Library, row.call),
        FIRST => (Engine::Library, row.call.first_form().expect("a call with floors")),
        _ => (Engine::Rust, row.call),
    };
    let inputs = inputs(row, SHEETS);
    for _ in 0..passes.parse().expect("a number of passes") {
        answer(engine, call, &inputs);
    }
}

/// The table of instruction counts.
pub fn show(rows: &[Row]) -> ExitCode {
    let counters = [perf as Counter, valgrind];
    let Some(counter) = counters.into_iter().find(|count| count(&[ONLY, RUST, "0", "1"]).is_some()) else {
        eprintln!("Neither perf nor valgrind counts instructions on this machine.");
        return ExitCode::FAILURE;
    };
    println!("{} library instructions | Rust instructions | library / Rust | without floors | with floors / without |", crate::TITLES);
    println!("{}---------------------:|------------------:|---------------:|---------------:|----------------------:|", crate::RULES);
    for (at, row) in rows.iter().enumerate() {
        let [library, rust] = [LIBRARY, RUST].map(|engine| a_call(counter, engine, at));
        let ratio = library as f64 / rust as f64;
        let first = row.call.first_form().map(|_| a_call(counter, FIRST, at));
        let without = first.map_or(String::new(), |first| first.to_string());
        let more = first.map_or(String::new(), |first| format!("{:.3}", library as f64 / first as f64));
        println!("{} {library:>20} | {rust:>17} | {ratio:>14.2} | {without:>14} | {more:>21} |", crate::title(row.part, row));
    }
    ExitCode::SUCCESS
}

fn a_call(counter: Counter, engine: &str, row: usize) -> u64 {
    let run = |passes: u64| counter(&[ONLY, engine, &row.to_string(), &passes.to_string()]).expect("it counted before");
    (run(MANY) - run(FEW)) / ((MANY - FEW) * SHEETS as u64)
}

/// Runs this program with some words and gives the instructions, if the counter is there and counts.
type Counter = fn(&[&str]) -> Option<u64>;

fn perf(words: &[&str]) -> Option<u64> {
    let report = report("perf", &["stat", "-x", ",", "-e", "instructions:u"], words)?;
    report.lines().find(|line| line.contains("instructions"))?.split(',').next()?.parse().ok()
}

fn valgrind(words: &[&str]) -> Option<u64> {
    let options = ["--tool=cachegrind", "--cache-sim=no", "--cachegrind-out-file=/dev/null"];
    let report = report("valgrind", &options, words)?;
    let line = report.lines().find(|line| line.contains("I") && line.contains("refs:"))?;
    line.rsplit(':').next()?.trim().replace(',', "").parse().ok()
}

/// Keeps the C library from clearing and copying with one repeated instruction, which valgrind would count once a byte.
const NO_REPEATED: &str = "glibc.cpu.x86_rep_stosb_threshold=1000000000:glibc.cpu.x86_rep_movsb_threshold=1000000000";

/// What a counter writes to standard error about a run of this program.
fn report(counter: &str, options: &[&str], words: &[&str]) -> Option<String> {
    let program = std::env::current_exe().ok()?;
    let mut command = Command::new(counter);
    command.args(options).arg(program).args(words).env("GLIBC_TUNABLES", NO_REPEATED);
    let output = command.output().ok()?;
    String::from_utf8(output.stderr).ok()
}
