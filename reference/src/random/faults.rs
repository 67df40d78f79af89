//! Random kernel files of every kind: valid ones, ones with a few faults, ones that break one rule by shape, garbage.

use super::Random;
use super::kernels::{draft, draft_of, nested_draft, numbered, valid};
use crate::slow::kernel::{LOCK, SKIP, UNLOCK};
use crate::writer::Step;

/// Eleven in twenty of the files are valid, and so are turned ones that nest no locks.
pub fn kernel(random: &mut Random) -> Vec<u8> {
    match random.below(20) {
        0..10 => valid(random),
        10 => nested(random),
        11..14 => turned(random),
        14..16 => damaged(random),
        16 => anywhere(random),
        17 => locked(random),
        18 => long(random),
        _ => garbage(random),
    }
}

fn nested(random: &mut Random) -> Vec<u8> {
    let draft = nested_draft(random);
    numbered(random, &draft)
}

/// A valid file with one to three faults.
fn damaged(random: &mut Random) -> Vec<u8> {
    let mut file = valid(random);
    for _ in 0..1 + random.below(3) {
        fault(random, &mut file);
    }
    file
}

fn fault(random: &mut Random, file: &mut Vec<u8>) {
    let length = file.len();
    match random.below(8) {
        0 => file.truncate(random.below(length + 1)),
        1 => file.truncate(length.saturating_sub(1 + random.below(13))),
        2 => file.extend((0..1 + random.below(13)).map(|_| random.byte())),
        3 if length > 0 => {
            let at = random.below(length.min(16));
            file[at] = edge(random);
        }
        _ if length > 16 => {
            let at = 16 + random.below(length - 16);
            file[at] = edge(random);
        }
        _ => file.push(random.byte()),
    }
}

/// Values beside the limits of the fields, or any.
fn edge(random: &mut Random) -> u8 {
    match random.below(4) {
        0 => random.pick(&[0, 1, 2, 3, 4, 5, 7, 8, 15, 16, 17, 255]),
        1 | 2 => random.below(12) as u8,
        _ => random.byte(),
    }
}

/// Targets and nexts anywhere: bad linkage and bad targets.
fn anywhere(random: &mut Random) -> Vec<u8> {
    let mut file = valid(random);
    let count = (file.len() - 16) / 12;
    for (index, record) in file[16..].chunks_mut(12).enumerate() {
        if record[0] == SKIP && random.once_in(3) {
            let anywhere = random.below(count + 1);
            let target = random.pick(&[anywhere, anywhere, index + 1]) as u16;
            record[8..10].copy_from_slice(&target.to_le_bytes());
        }
        if random.once_in(40) {
            let next = random.below(count + 1) as u16;
            record[10..12].copy_from_slice(&next.to_le_bytes());
        }
    }
    if random.once_in(4) {
        let head = random.below(count + 1) as u16;
        file[8..10].copy_from_slice(&head.to_le_bytes());
    }
    file
}

/// Locks and skips put in without care for the held sets.
fn locked(random: &mut Random) -> Vec<u8> {
    let mut draft = draft(random);
    draft.locks = draft.locks.max(1);
    for lane in &mut draft.lanes {
        let length = lane.len();
        for position in (0..length).filter(|_| random.once_in(6)).collect::<Vec<_>>() {
            let b = random.below(draft.locks.into()) as u8;
            lane[position] = match random.below(3) {
                0 => Step { operation: LOCK, b, ..Step::default() },
                1 => Step { operation: UNLOCK, b, ..Step::default() },
                _ => {
                    let target = Some(position + 1 + random.below(length - position));
                    Step { operation: SKIP, a: random.below(8) as u8, target, ..Step::default() }
                }
            };
        }
    }
    draft.file()
}

/// In some lanes the locks under other numbers, which keeps every rule but that of upward locks; in one file of three
/// an UNLOCK of some lane becomes a LOCK, which breaks the rule of held sets.
fn turned(random: &mut Random) -> Vec<u8> {
    let mut draft = nested_draft(random);
    for lane in &mut draft.lanes {
        if random.once_in(2) {
            turn(random, lane, draft.locks);
        }
    }
    if random.once_in(3) {
        let lane = random.below(draft.lanes.len());
        let release = draft.lanes[lane].iter_mut().find(|step| step.operation == UNLOCK);
        release.into_iter().for_each(|step| step.operation = LOCK);
    }
    numbered(random, &draft)
}

/// Gives the locks of a lane other numbers.
pub fn turn(random: &mut Random, lane: &mut [Step], locks: u8) {
    let mut numbers: Vec<u8> = (0..locks).collect();
    random.shuffle(&mut numbers);
    for step in lane.iter_mut().filter(|step| matches!(step.operation, LOCK | UNLOCK)) {
        step.b = numbers[usize::from(step.b)];
    }
}

/// Chains about the limit of 64, and files about the limit of 256 records.
fn long(random: &mut Random) -> Vec<u8> {
    let lanes = 1 + random.below(4);
    let lengths: Vec<usize> = (0..lanes).map(|_| random.pick(&[0, 1, 63, 64, 64, 64, 65, 66, 100])).collect();
    draft_of(random, &lengths).file()
}

fn garbage(random: &mut Random) -> Vec<u8> {
    let length = random.pick(&[0, 1, 15, 16, 17, 28, 40, 100, 3088, 3089, 3100]);
    if random.once_in(3) {
        return (0..length).map(|_| random.byte()).collect();
    }
    let count = random.below(40);
    let mut file = vec![1 + random.below(4) as u8, 1 + random.below(16) as u8, random.below(5) as u8, 0, 0, 0];
    file.extend((count as u16).to_le_bytes());
    file.extend([random.below(count + 1) as u8, 0, 0, 0, 0, 0, 0, 0]);
    file.extend((0..12 * count).map(|_| if random.once_in(3) { random.below(9) as u8 } else { 0 }));
    file
}
