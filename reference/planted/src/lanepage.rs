//! Stand-in for the program `lanepage`: the slow pages of standard input, in which faults are planted.

#[allow(dead_code, unused_imports)]
#[path = "../../src/slow/mod.rs"]
mod slow;

use std::io::{self, Read, Write};

fn main() -> io::Result<()> {
    let mut input = Vec::new();
    io::stdin().read_to_end(&mut input)?;
    io::stdout().write_all(&slow::page_listing(&input))
}
