//! Slow implementation: the page form of the level 2 sheet, by request 3 of paper 02, and what `lanepage` prints.

use super::kernel::{ADD, Kernel, LOAD, LOCK, SET, SKIP, STORE, UNLOCK};
use super::listing::printed;
use super::sheets::{Instruction, Level, MFENCE, instructions};
use std::ops::RangeInclusive;

/// "at most 55 instruction lines"
const LINES: usize = 55;

/// What `lanepage` prints for a kernel file on standard input.
pub fn page_listing(input: &[u8]) -> Vec<u8> {
    printed(input, pages)
}

pub fn pages(kernel: &Kernel) -> String {
    let part = |lane: usize| {
        let own = instructions(kernel, lane, Level::Two);
        own.into_iter().enumerate().map(move |(position, instruction)| line(lane, position, instruction))
    };
    // "lanes run on"
    let lines: Vec<String> = (0..kernel.header.lanes).flat_map(part).collect();
    // "Only a kernel without instructions gives a heading alone."
    let pages: Vec<&[String]> = if lines.is_empty() { vec![&[]] } else { lines.chunks(LINES).collect() };
    pages.iter().zip(1..).map(|(lines, number)| heading(number) + &lines.concat()).collect()
}

/// "`page` in columns 1-4 and its number, from 1, in columns 30-32, to the right"
fn heading(number: usize) -> String {
    spaced(&[left(1..=4, "page"), right(30..=32, Some(number))])
}

pub fn line(lane: usize, position: usize, instruction: Instruction) -> String {
    let Instruction { operation, a, b, word, record, .. } = instruction;
    let (name, a, b, word, record) = match operation {
        SET => ("SET", Some(a), None, Some(word), Some(record)),
        ADD => ("ADD", Some(a), Some(b), None, Some(record)),
        LOAD => ("LOAD", Some(a), Some(b), None, Some(record)),
        STORE => ("STORE", Some(a), Some(b), None, Some(record)),
        LOCK => ("LOCK", None, Some(b), None, Some(record)),
        UNLOCK => ("UNLOCK", None, Some(b), None, Some(record)),
        SKIP => ("SKIP", Some(a), None, Some(word), Some(record)),
        // "MFENCE has no record"
        MFENCE => ("MFENCE", None, None, None, None),
        other => unreachable!("level 2 has no operation {other}"),
    };
    spaced(&[
        right(1..=1, Some(lane)),
        right(3..=5, Some(position)),
        left(7..=12, name),
        right(14..=14, a),
        right(16..=17, b),
        right(19..=28, word),
        right(30..=32, record),
    ])
}

/// The columns of a field, from 1, and the characters in them.
type Field = (RangeInclusive<usize>, String);

fn left(columns: RangeInclusive<usize>, text: &str) -> Field {
    let width = columns.clone().count();
    (columns, format!("{text:<width$}"))
}

/// Blank where the instruction lacks the field.
fn right(columns: RangeInclusive<usize>, number: Option<impl ToString>) -> Field {
    let width = columns.clone().count();
    let text = number.map_or(String::new(), |number| number.to_string());
    (columns, format!("{text:>width$}"))
}

/// "exactly 32 characters and a newline"; "all else is blank"
fn spaced(fields: &[Field]) -> String {
    let mut line = " ".repeat(32);
    for (columns, text) in fields {
        line.replace_range(columns.start() - 1..*columns.end(), text);
    }
    line + "\n"
}
