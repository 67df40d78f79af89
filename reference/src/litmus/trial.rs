//! Tries a litmus row under one mask: outcomes by every way there is, held to each other and to the row, or its refusal
//! by everybody.

use super::rows::{Ends, Expected, MACHINES, Row};
use super::search::search;
use crate::Run;
use crate::slow::kernel::Refusal;
use crate::slow::machines::Machine;
use crate::slow::outcomes::Outcome;
use crate::slow::{STATE, answer, outcomes, run, straight_outcomes};
use std::collections::BTreeSet;

/// Runs of somebody, by name: one for each machine.
pub struct Runs {
    pub name: &'static str,
    pub runs: [Run; 3],
}

pub const SLOW: Runs = Runs {
    name: "slow",
    runs: [
        |file, moves, state| run(Machine::Source, file, moves, state),
        |file, moves, state| run(Machine::Tso, file, moves, state),
        |file, moves, state| run(Machine::Pso, file, moves, state),
    ],
};

/// What came out of a mask.
pub struct Trial {
    pub found: Found,
    pub differences: Vec<String>,
}

pub enum Found {
    Refused(Refusal),
    /// For each of `MACHINES` whether what is asked is allowed, and the number of outcomes.
    Ends {
        allowed: Vec<bool>,
        counts: Vec<usize>,
    },
}

/// Of `MACHINES`, whose outcomes lie within whose: SC within tso within pso within source.
const WITHIN: [(usize, usize); 3] = [(0, 2), (2, 3), (3, 1)];

pub fn try_row(row: &Row, mask: u16, others: &[Runs]) -> Result<Trial, String> {
    let file = row.assembled.file(mask);
    let mut trial = match &row.expected {
        Expected::Refused(refusal) => try_refusal(*refusal, &file, others),
        Expected::Ends(ends) => try_ends(row, ends, mask, others)?,
    };
    let records = (file.len() - 16) / 12;
    if row.records != records {
        trial.differences.push(format!("{records} records instead of {}", row.records));
    }
    Ok(trial)
}

/// The empty schedule, on every machine by everybody: the refusal, and nothing written.
fn try_refusal(refusal: Refusal, file: &[u8], others: &[Runs]) -> Trial {
    let expected = answer(Err(refusal));
    let mut differences = Vec::new();
    for Runs { name, runs } in others.iter().chain([&SLOW]) {
        for (machine, run) in Machine::ALL.into_iter().zip(runs) {
            let mut state = [77; STATE];
            let given = run(file, &[], &mut state);
            if given != expected || state != [77; STATE] {
                differences.push(format!("{machine:?} by {name}: answer {given:#x} instead of {expected:#x}"));
            }
        }
    }
    Trial { found: Found::Refused(refusal), differences }
}

fn try_ends(row: &Row, ends: &Ends, mask: u16, others: &[Runs]) -> Result<Trial, String> {
    let file = row.assembled.file(mask);
    let refused = |refusal| format!("{}: {refusal:?}", row.name);
    let straight = straight_outcomes(&file).map_err(refused)?;
    let mut sets = vec![straight];
    for machine in Machine::ALL {
        sets.push(outcomes(machine, &file).map_err(refused)?);
    }
    let mut differences = Vec::new();
    for Runs { name, runs } in others {
        for ((machine, run), expected) in Machine::ALL.into_iter().zip(runs).zip(&sets[1..]) {
            if search(machine, &file, *run)? != *expected {
                differences.push(format!("{machine:?} by {name}: other outcomes than by slow"));
            }
        }
    }
    for (inner, outer) in WITHIN {
        if !sets[inner].is_subset(&sets[outer]) {
            differences.push(format!("{} within {} does not hold", MACHINES[inner], MACHINES[outer]));
        }
    }
    let allowed: Vec<bool> = sets.iter().map(|set| set.iter().any(|outcome| ends.met(outcome))).collect();
    let counts: Vec<usize> = sets.iter().map(BTreeSet::<Outcome>::len).collect();
    differences.extend(held_to(row, ends, mask, &allowed, &counts));
    Ok(Trial { found: Found::Ends { allowed, counts }, differences })
}

/// What differs from the row and from what is published.
fn held_to(row: &Row, ends: &Ends, mask: u16, allowed: &[bool], counts: &[usize]) -> Vec<String> {
    let mut differences = Vec::new();
    for (machine, name) in MACHINES.iter().enumerate() {
        let expected = ends.allowing[machine].contains(&mask);
        if allowed[machine] != expected {
            differences.push(format!("{name}: allowed is {} instead of {expected}", allowed[machine]));
        }
    }
    // what is published speaks of locations as x86 has them: no mark but the fences that the row writes itself
    if mask == row.masks[0] && row.published.is_some_and(|published| published != allowed[2]) {
        differences.push("tso differs from the published verdict".to_string());
    }
    // and as Sparc has them: with the barriers that level 3 writes under the mask
    if row.sparc_published(mask).is_some_and(|published| published.allowed != allowed[3]) {
        differences.push("pso differs from the published verdict".to_string());
    }
    let expected = ends.expected_outcomes(&row.masks, mask);
    if expected.is_some_and(|expected| *expected != counts) {
        differences.push(format!("outcomes {counts:?} instead of {expected:?}"));
    }
    differences
}
