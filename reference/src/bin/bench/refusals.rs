//! Benchmark of the refusals of a header and of a length, by the lowering of level 2.

use super::table::{print_row, time};
use super::{KERNELS, SHEET, assert_alike, kernels, lower_all};
use reference::{Lower, fast, library};

/// Calls of one go: clearing the sheet before it does not count beside so many.
const CALLS: usize = 1024;

/// A refusal and the change that a file gets it by.
type Break = (u64, fn(&mut Vec<u8>));

pub fn refusals(rounds: usize) {
    let breaks: [Break; 2] = [(2, |file| file[0] = 5), (3, |file| file.push(0))];
    for lengths in [&[3, 3][..], &[64, 64, 64, 64]] {
        let records: usize = lengths.iter().sum();
        for (refusal, change) in breaks {
            let mut files: Vec<Vec<u8>> = kernels(lengths).take(KERNELS).collect();
            files.iter_mut().for_each(change);
            assert_alike::<SHEET>(&files, refusal, library::lower2, fast::lower2);
            let calls = || files.iter().cycle().take(CALLS);
            let sample = |lower: Lower| time(|| lower_all::<SHEET>(calls(), lower)) / CALLS as f64;
            let name = format!("refused {refusal}, {records} records");
            print_row(&name, rounds, || sample(library::lower2), || sample(fast::lower2));
        }
    }
}
