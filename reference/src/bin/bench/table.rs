//! Timing in turns, and the lines of the benchmark's table.

use std::time::{Duration, Instant};

/// The shortest time a sample may take.
const SAMPLE: Duration = Duration::from_micros(200);

/// The head of a table of two sides.
pub fn print_columns(left: &str, right: &str) {
    println!("\n| what | {left}, ns | {right}, ns | ratio | spread of the ratio |");
    println!("|---|---|---|---|---|");
}

/// One line from samples in nanoseconds; each side goes first in every other round.
pub fn print_row(name: &str, rounds: usize, left: impl Fn() -> f64, right: impl Fn() -> f64) {
    let round = |number: usize| {
        if number.is_multiple_of(2) {
            let first = left();
            (first, right())
        } else {
            let first = right();
            (left(), first)
        }
    };
    let samples: Vec<(f64, f64)> = (0..rounds).map(round).collect();
    let left = part(samples.iter().map(|pair| pair.0).collect(), 0.5);
    let right = part(samples.iter().map(|pair| pair.1).collect(), 0.5);
    let ratios: Vec<f64> = samples.iter().map(|pair| pair.0 / pair.1).collect();
    let [low, middle, high] = [0.1, 0.5, 0.9].map(|below| part(ratios.clone(), below));
    println!("| {name} | {left:.1} | {right:.1} | {middle:.2} | {low:.2} to {high:.2} |");
}

/// Nanoseconds of one go, from as many as fill a sample.
pub fn time(work: impl Fn()) -> f64 {
    let once = span(1, &work);
    let goes = (SAMPLE.as_nanos() / once.as_nanos().max(1)).max(1) as u32;
    span(goes, &work).as_nanos() as f64 / f64::from(goes)
}

fn span(goes: u32, work: &impl Fn()) -> Duration {
    let start = Instant::now();
    (0..goes).for_each(|_| work());
    start.elapsed()
}

/// The sample that this part of them lies below.
fn part(mut samples: Vec<f64>, below: f64) -> f64 {
    samples.sort_by(f64::total_cmp);
    samples[(below * (samples.len() - 1) as f64) as usize]
}
