//! Program: the fast implementation against the slow one on random cases. Arguments: number of cases, seed.

use reference::compare::{Arguments, Calls, compare, report};
use reference::fast;
use std::process::ExitCode;

fn main() -> ExitCode {
    let (lower1, lower2, lower3) = (fast::lower1, fast::lower2, fast::lower3);
    let calls = Calls { lower1, lower2, lower3, page: fast::page, runs: Some(fast::RUNS) };
    report("agree: fast and slow", compare(&Arguments::read(20_000), &calls))
}
