//! Program: times the library and the fast implementation in turns and prints their ratios. Argument: rounds.

mod refusals;
#[cfg(feature = "runs")]
mod runs;
mod table;
mod worst;

use reference::random::{Random, draft_of, numbered};
use reference::{Lower, fast, library};
use std::hint::black_box;
use table::{print_columns, print_row, time};

const KERNELS: usize = 16;
/// Room for the sheets of 256 records: no access has more than two barriers before it.
const SHEET: usize = 8192;
/// Room for their pages: 512 lines at most, and ten headings.
const PAGE: usize = 17_226;

fn main() {
    let rounds = std::env::args().nth(1).and_then(|word| word.parse().ok()).unwrap_or(301);
    println!("Buffers are not cleared between calls. Each size goes round {KERNELS} kernels.");
    println!("Medians of {rounds} rounds; the spread leaves out a tenth of them at each end.");
    print_columns("library", "fast");
    lowering(rounds);
    #[cfg(feature = "runs")]
    runs::runs(rounds);
    worst::worst(rounds);
    refusals::refusals(rounds);
    #[cfg(feature = "runs")]
    runs::pso_to_tso(rounds);
}

/// Kernels of the given lane lengths without end, records shuffled.
fn kernels(lengths: &[usize]) -> impl Iterator<Item = Vec<u8>> {
    (0..).map(|seed| {
        let mut random = Random::new(seed);
        let draft = draft_of(&mut random, lengths);
        numbered(&mut random, &draft)
    })
}

fn lowering(rounds: usize) {
    for lengths in [&[3, 3][..], &[20, 20], &[64, 64, 64, 64]] {
        let files: Vec<Vec<u8>> = kernels(lengths).take(KERNELS).collect();
        let records: usize = lengths.iter().sum();
        each_level(rounds, &format!("{records} records"), &files);
        line::<PAGE>(rounds, &format!("page, {records} records"), &files, library::page, fast::page);
    }
}

/// A line for each level, of files that are accepted.
fn each_level(rounds: usize, what: &str, files: &[Vec<u8>]) {
    line::<SHEET>(rounds, &format!("level 1, {what}"), files, library::lower1, fast::lower1);
    line::<SHEET>(rounds, &format!("level 2, {what}"), files, library::lower2, fast::lower2);
    line::<SHEET>(rounds, &format!("level 3, {what}"), files, library::lower3, fast::lower3);
}

/// A line of files that are accepted, with an output buffer of this length.
fn line<const ROOM: usize>(rounds: usize, name: &str, files: &[Vec<u8>], library: Lower, fast: Lower) {
    assert_alike::<ROOM>(files, 0, library, fast);
    let sample = |lower: Lower| time(|| lower_all::<ROOM>(files.iter(), lower)) / files.len() as f64;
    print_row(name, rounds, || sample(library), || sample(fast));
}

fn lower_all<'a, const ROOM: usize>(files: impl Iterator<Item = &'a Vec<u8>>, lower: Lower) {
    let mut out = [0; ROOM];
    files.for_each(|file| {
        black_box(lower(black_box(file), &mut out));
    });
}

/// Both sides answer every file with this refusal, or with the same output where it is 0.
fn assert_alike<const ROOM: usize>(files: &[Vec<u8>], refusal: u64, library: Lower, fast: Lower) {
    for file in files {
        let answered = |lower: Lower| {
            let mut out = [0; ROOM];
            (lower(file, &mut out), out)
        };
        let (ours, theirs) = (answered(library), answered(fast));
        assert_eq!([ours.0 >> 32, theirs.0 >> 32], [refusal; 2]);
        assert!(ours == theirs, "the library and the fast implementation differ");
    }
}
