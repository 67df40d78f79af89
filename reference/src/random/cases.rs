//! The cases of a seed, each by its number alone: a kernel file and schedules for the three machines.

use super::edges::{Edge, edges};
use super::{Random, faults, schedules};
use crate::slow::kernel::check;
use crate::slow::machines::{Machine, Program};

pub struct Cases {
    seed: u64,
    edges: Vec<Edge>,
}

pub struct Case<'a> {
    /// What the file is at the edge of, and the record that its refusal names.
    pub edge: Option<(&'a Edge, usize)>,
    pub file: Vec<u8>,
    pub schedules: Vec<(Machine, Vec<u8>)>,
    /// For what else the case needs.
    pub random: Random,
}

impl Cases {
    pub fn new(seed: u64) -> Self {
        Cases { seed, edges: edges() }
    }

    pub fn edges(&self) -> &[Edge] {
        &self.edges
    }

    /// Every third case is at an edge, each edge in its turn.
    pub fn case(&self, number: u64) -> Case<'_> {
        let mut random = Random::new(self.seed.wrapping_mul(1_000_003).wrapping_add(number));
        let turn = (number / 3) as usize % self.edges.len();
        let edge = (number % 3 == 2).then(|| &self.edges[turn]);
        let (file, record) = match edge {
            Some(edge) => edge.make(&mut random),
            None => (faults::kernel(&mut random), 0),
        };
        let schedules = schedules_for(&mut random, &file);
        Case { edge: edge.map(|edge| (edge, record)), file, schedules, random }
    }
}

/// An accepted kernel gets three schedules for each machine, the first of them with lists as long as they get, and one
/// more for the pso machine, whose choices go by the lists.
fn schedules_for(random: &mut Random, file: &[u8]) -> Vec<(Machine, Vec<u8>)> {
    let lanes = file.first().map_or(1, |lanes| usize::from(*lanes).clamp(1, 4));
    let (records, accepted) = (file.len() / 12, check(file));
    let mut schedules = Vec::new();
    for machine in Machine::ALL {
        let highest = machine.highest_choice();
        if accepted.is_ok() {
            schedules.push((machine, schedules::piled_schedule(random, lanes, records, highest)));
        }
        for _ in 0..if accepted.is_ok() { 2 } else { 1 } {
            schedules.push((machine, schedules::schedule(random, lanes, records, highest)));
        }
    }
    if let Ok(kernel) = accepted {
        let program = Program::new(Machine::Pso, &kernel);
        schedules.push((Machine::Pso, schedules::walked_schedule(random, &program, records)));
    }
    schedules
}
