//! Kernel files at the edge of one rule: the smallest break of it, or the largest that keeps it, and no other broken;
//! of refusal 12 also beside a break of 8.

mod headers;
mod lanes;
mod marks;
mod order;
mod pages;
mod records;

use super::Random;
use super::kernels::draft_of;
use crate::slow::kernel::SKIP;
use crate::writer::{Draft, Step};

/// The file and the record that the refusal names, 0 where none is named.
type Make = Box<dyn Fn(&mut Random) -> (Vec<u8>, usize)>;

pub struct Edge {
    pub name: String,
    /// The refusal's number, 0 for an accepted kernel.
    pub refusal: u64,
    make: Make,
}

impl Edge {
    fn new(name: &str, refusal: u64, make: impl Fn(&mut Random) -> (Vec<u8>, usize) + 'static) -> Self {
        Edge { name: name.to_string(), refusal, make: Box::new(make) }
    }

    pub fn make(&self, random: &mut Random) -> (Vec<u8>, usize) {
        (self.make)(random)
    }
}

/// Every edge, in the order in which cases take their turns.
pub fn edges() -> Vec<Edge> {
    let others = [pages::edges(), marks::edges(), order::edges()];
    [headers::edges(), records::edges(), lanes::edges()].into_iter().chain(others).flatten().collect()
}

/// A valid kernel of a few records in each of so many lanes, with at least two locks.
fn small(random: &mut Random, lanes: usize) -> Draft {
    let lengths: Vec<usize> = (0..lanes).map(|_| 1 + random.below(6)).collect();
    let mut draft = draft_of(random, &lengths);
    draft.locks = draft.locks.max(2);
    draft
}

fn step(operation: u8, a: u8, b: u8) -> Step {
    Step { operation, a, b, ..Step::default() }
}

/// A SKIP to a position, for `put` one among the steps that are put in.
fn skip(target: usize) -> Step {
    Step { operation: SKIP, a: 1, target: Some(target), ..Step::default() }
}

/// Where steps were put into a lane.
#[derive(Clone, Copy)]
struct Place {
    lane: usize,
    position: usize,
}

/// Puts steps before the first record of some lane or behind its last, where no lock is held.
fn put(random: &mut Random, draft: &mut Draft, steps: &[Step], at_end: bool) -> Place {
    let lane = random.below(draft.lanes.len());
    put_into(random, draft, lane, steps, at_end)
}

/// The same in this lane.
fn put_into(random: &mut Random, draft: &mut Draft, lane: usize, steps: &[Step], at_end: bool) -> Place {
    let chain = &mut draft.lanes[lane];
    let position = if at_end || random.once_in(2) { chain.len() } else { 0 };
    for own in chain.iter_mut() {
        own.target = own.target.map(|target| if target > position { target + steps.len() } else { target });
    }
    let placed = steps.iter().map(|own| Step { target: own.target.map(|target| target + position), ..*own });
    chain.splice(position..position, placed.collect::<Vec<_>>());
    Place { lane, position }
}

/// A file under random record numbers, with the number of each record: lane, then position.
struct Numbered {
    file: Vec<u8>,
    numbers: Vec<Vec<usize>>,
}

impl Numbered {
    fn new(random: &mut Random, draft: &Draft) -> Self {
        let mut numbers: Vec<usize> = (1..=draft.count()).collect();
        random.shuffle(&mut numbers);
        Numbered::by(draft, &numbers)
    }

    /// The record at this place has the highest number.
    fn highest_at(random: &mut Random, draft: &Draft, place: Place) -> Self {
        let mut numbers: Vec<usize> = (1..draft.count()).collect();
        random.shuffle(&mut numbers);
        let before: usize = draft.lanes[..place.lane].iter().map(Vec::len).sum();
        numbers.insert(before + place.position, draft.count());
        Numbered::by(draft, &numbers)
    }

    fn by(draft: &Draft, numbers: &[usize]) -> Self {
        let mut rest = numbers.iter().copied();
        let numbers_of = |lane: &Vec<Step>| rest.by_ref().take(lane.len()).collect();
        Numbered { numbers: draft.lanes.iter().map(numbers_of).collect(), file: draft.file_numbered(numbers) }
    }

    fn number(&self, place: Place) -> usize {
        self.numbers[place.lane][place.position]
    }

    /// Sets a byte of a record.
    fn byte(&mut self, place: Place, byte: usize, value: u8) {
        let at = 16 + 12 * (self.number(place) - 1) + byte;
        self.file[at] = value;
    }

    /// Sets the two bytes of a record's target (8) or next (10).
    fn link(&mut self, place: Place, byte: usize, value: usize) {
        let [low, high] = (value as u16).to_le_bytes();
        self.byte(place, byte, low);
        self.byte(place, byte + 1, high);
    }

    fn head(&mut self, lane: usize, value: usize) {
        self.file[8 + 2 * lane..10 + 2 * lane].copy_from_slice(&(value as u16).to_le_bytes());
    }
}

/// Steps in a lane of a valid kernel; the refusal names one of them.
fn steps(name: &str, refusal: u64, at_end: bool, named: usize, steps: &[Step]) -> Edge {
    let steps = steps.to_vec();
    Edge::new(name, refusal, move |random| {
        let lanes = 1 + random.below(4);
        let mut draft = small(random, lanes);
        let Place { lane, position } = put(random, &mut draft, &steps, at_end);
        let numbered = Numbered::new(random, &draft);
        let record = if refusal == 0 { 0 } else { numbered.numbers[lane][position + named] };
        (numbered.file, record)
    })
}
