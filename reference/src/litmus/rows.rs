//! Reads the litmus rows: kernels in the assembler's notation with the verdicts and numbers that are expected.

use super::assembler::{Assembled, assemble, constant, location, register};
use crate::slow::kernel::Refusal;
use crate::slow::outcomes::Outcome;
use std::collections::BTreeMap;

const TABLES: [&str; 6] = [
    include_str!("two-lanes.txt"),
    include_str!("three-lanes.txt"),
    include_str!("four-lanes.txt"),
    include_str!("mutual-exclusion.txt"),
    include_str!("documents.txt"),
    include_str!("locks.txt"),
];

/// SC, source, tso and pso, in this order wherever the rows give one thing for each.
pub const MACHINES: [&str; 4] = ["SC", "source", "tso", "pso"];

/// A condition on the end of a run.
#[derive(Clone, Copy, Debug)]
enum Asked {
    Register { lane: usize, register: usize, value: u32 },
    Memory { location: usize, value: u32 },
}

/// A verdict that a publication has for a mask, and where.
#[derive(Debug)]
pub struct Published {
    pub mask: u16,
    pub allowed: bool,
    pub place: String,
}

/// What a row expects of its kernel.
pub enum Expected {
    /// Under every mask.
    Refused(Refusal),
    Ends(Ends),
}

/// The ends of an accepted kernel's finished runs.
pub struct Ends {
    pub asked_text: String,
    asked: Vec<Asked>,
    /// For each machine the masks that allow what is asked.
    pub allowing: Vec<Vec<u16>>,
    /// For the first mask, and for the last if there are several, the number of outcomes on each machine.
    outcomes: Vec<Vec<usize>>,
}

impl Ends {
    /// Whether the outcome is the one asked for.
    pub fn met(&self, outcome: &Outcome) -> bool {
        self.asked.iter().all(|asked| match *asked {
            Asked::Register { lane, register, value } => outcome.registers[lane][register] == value,
            Asked::Memory { location, value } => outcome.memory[location] == value,
        })
    }

    /// The numbers of outcomes that the row gives for one of its masks.
    pub fn expected_outcomes(&self, masks: &[u16], mask: u16) -> Option<&Vec<usize>> {
        match mask {
            _ if mask == masks[0] => self.outcomes.first(),
            _ if Some(&mask) == masks.last() => self.outcomes.get(1),
            _ => None,
        }
    }
}

pub struct Row {
    pub name: String,
    pub assembled: Assembled,
    pub masks: Vec<u16>,
    /// Published for x86 under the first mask, if anything is.
    pub published: Option<bool>,
    /// Published for Sparc PSO: barriers as level 3 has them under the mask.
    pub sparc: Vec<Published>,
    pub expected: Expected,
    pub records: usize,
}

impl Row {
    /// What is published for Sparc PSO with the barriers of this mask.
    pub fn sparc_published(&self, mask: u16) -> Option<&Published> {
        self.sparc.iter().find(|published| published.mask == mask)
    }
}

/// All rows, or what is wrong with the text of one.
pub fn rows() -> Result<Vec<Row>, String> {
    let blocks = TABLES.iter().flat_map(|table| table.split("\n\n").skip(1));
    blocks.map(|block| row(block).map_err(|fault| format!("{fault} in row: {block}"))).collect()
}

fn row(block: &str) -> Result<Row, String> {
    // a line that starts with a lane's sign goes on with the line before
    let joined = block.replace("\n    ‖", " ‖");
    let fields: BTreeMap<&str, &str> = joined.lines().filter_map(|line| line.split_once(' ')).collect();
    let field = |name: &str| fields.get(name).copied().ok_or_else(|| format!("no {name}"));
    let assembled = assemble(field("locations")?, field("lanes")?)?;
    let masks = match fields.get("masks") {
        Some(sets) => masks(&assembled, sets)?,
        None => (0..1 << assembled.names.len()).collect(),
    };
    let expected = match fields.get("refused") {
        Some(text) => Expected::Refused(refusal(text)?),
        None => Expected::Ends(ends(&assembled, &masks, &fields)?),
    };
    Ok(Row {
        name: field("test")?.to_string(),
        published: published(field("x86")?)?,
        sparc: sparc(&assembled, field("sparc")?)?,
        expected,
        records: field("records")?.parse().map_err(|_| "no number of records")?,
        assembled,
        masks,
    })
}

/// `12 record 8`.
fn refusal(text: &str) -> Result<Refusal, String> {
    let (number, record) = text.split_once(" record ").ok_or("no record of the refusal")?;
    let number = number.parse().map_err(|_| format!("no refusal {number}"))?;
    Ok(Refusal { number, record: record.parse().map_err(|_| format!("no record {record}"))? })
}

fn ends(assembled: &Assembled, masks: &[u16], fields: &BTreeMap<&str, &str>) -> Result<Ends, String> {
    let field = |name: &str| fields.get(name).copied().ok_or_else(|| format!("no {name}"));
    let allowing = MACHINES.iter().map(|machine| match field(machine)? {
        "A" => Ok(masks.to_vec()),
        "F" => Ok(Vec::new()),
        sets => self::masks(assembled, sets),
    });
    Ok(Ends {
        asked_text: field("asked")?.to_string(),
        asked: field("asked")?.split_whitespace().map(|word| asked(assembled, word)).collect::<Result<_, _>>()?,
        allowing: allowing.collect::<Result<_, String>>()?,
        outcomes: field("outcomes")?.split("; ").map(numbers).collect::<Result<_, _>>()?,
    })
}

/// The masks of sets such as `{} {x} {x y}`.
fn masks(assembled: &Assembled, sets: &str) -> Result<Vec<u16>, String> {
    sets.split_inclusive('}').map(|set| assembled.mask(set.trim())).collect()
}

fn published(word: &str) -> Result<Option<bool>, String> {
    match word {
        "allowed" => Ok(Some(true)),
        "forbidden" => Ok(Some(false)),
        "-" => Ok(None),
        _ => Err(format!("no verdict {word}")),
    }
}

/// `{} allowed 002 fig. 4.1a; {x y} forbidden 002 ex. 4.1`, or `-`.
fn sparc(assembled: &Assembled, text: &str) -> Result<Vec<Published>, String> {
    let verdict = |part: &str| {
        let (set, rest) = part.split_once("} ").ok_or("no mask published")?;
        let (word, place) = rest.split_once(' ').ok_or("no place published")?;
        let allowed = published(word)?.ok_or("no verdict published")?;
        Ok(Published { mask: assembled.mask(set)?, allowed, place: place.to_string() })
    };
    if text == "-" { Ok(Vec::new()) } else { text.split("; ").map(verdict).collect() }
}

fn numbers(text: &str) -> Result<Vec<usize>, String> {
    text.split('/').map(|number| number.parse().map_err(|_| format!("no number {number}"))).collect()
}

/// `0:r1=5` or `x=2`.
fn asked(assembled: &Assembled, word: &str) -> Result<Asked, String> {
    let (left, right) = word.split_once('=').ok_or("no equation asked")?;
    let value = constant(right)?;
    match left.split_once(':') {
        Some((lane, name)) => {
            let register = register(name).ok_or("no register asked")?.into();
            let lane = lane.parse().map_err(|_| format!("no lane {lane}"))?;
            Ok(Asked::Register { lane, register, value })
        }
        None => Ok(Asked::Memory { location: location(&assembled.names, left)?.into(), value }),
    }
}
