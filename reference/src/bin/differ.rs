//! Program: the library against the slow implementation. Arguments: number of cases, seed, `lower` to leave out runs.

use reference::compare::{Arguments, Calls, compare, compare_long, report};
use reference::{Run, library};
use std::process::ExitCode;

#[cfg(feature = "runs")]
const RUNS: Option<[Run; 3]> = Some(library::RUNS);
#[cfg(not(feature = "runs"))]
const RUNS: Option<[Run; 3]> = None;

fn main() -> ExitCode {
    let runs = RUNS.filter(|_| std::env::args().all(|word| word != "lower"));
    let (lower1, lower2, lower3) = (library::lower1, library::lower2, library::lower3);
    let calls = Calls { lower1, lower2, lower3, page: library::page, runs };
    let short = report("differ: library and slow", compare(&Arguments::read(20_000), &calls));
    let long = report("differ: library and fast, long schedules", compare_long(&calls));
    if short == ExitCode::SUCCESS { long } else { short }
}
