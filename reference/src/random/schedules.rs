//! Random schedules as bytes from C: valid ones, and ones with a fault somewhere.

use super::Random;
use crate::slow::machines::{Program, Turn};

/// A schedule for a machine whose highest choice is `highest`; some have a fault, mostly the smallest.
pub fn schedule(random: &mut Random, lanes: usize, records: usize, highest: u8) -> Vec<u8> {
    let mut moves = valid_schedule(random, lanes, records, highest);
    let beyond = lanes as u8;
    let count = moves.len() / 2;
    let anywhere = random.below(count.max(1));
    let at = 2 * random.pick(&[0, count.saturating_sub(1), anywhere]);
    match random.below(16) {
        0 if !moves.is_empty() => moves[at] = beyond,
        1 if !moves.is_empty() => moves[at] = random.pick(&[4, 5, 255]).max(beyond),
        2 if !moves.is_empty() => moves[at + 1] = highest + 1,
        3 if !moves.is_empty() => moves[at + 1] = random.pick(&[65, 66, 255]),
        4 => moves.push(random.below(2) as u8),
        5 => moves.extend([beyond - 1, highest]),
        _ => {}
    }
    moves
}

/// A valid schedule of so many moves.
pub fn long_schedule(random: &mut Random, lanes: usize, count: usize, highest: u8) -> Vec<u8> {
    (0..count).flat_map(|_| [random.below(lanes) as u8, random.pick(&[0, 0, 0, 1, highest])]).collect()
}

fn valid_schedule(random: &mut Random, lanes: usize, records: usize, highest: u8) -> Vec<u8> {
    let count = match random.below(8) {
        0 => 0,
        1 | 2 => random.below(20),
        3..7 => random.below(3 * records + 8),
        _ => random.below(2000),
    };
    // some schedules are full of commits, some have hardly any, so that lists grow long
    let commits = random.pick(&[2, 3, 20, 200]);
    let mut moves = Vec::new();
    for _ in 0..count {
        let choice = match random.below(commits) {
            0 => 1,
            1 if random.once_in(3) => random.below(usize::from(highest) + 1) as u8,
            2 => random.below(usize::from(highest) + 1).min(random.below(5)) as u8,
            _ => 0,
        };
        moves.extend([random.below(lanes) as u8, choice]);
    }
    moves
}

/// Choices go by the lists as the moves before leave them: 0, or up to one more than the lane's pending entries, which
/// lists of 64 make the 65 that no machine has.
pub fn walked_schedule(random: &mut Random, program: &Program, records: usize) -> Vec<u8> {
    let (mut state, mut moves) = (program.start(), Vec::new());
    let count = random.below(2 * records + 8);
    // with few commits until half of the moves are made, lists grow long
    let commits = random.pick(&[2, 3, 40]);
    for number in 0..count {
        let lane = random.below(state.lanes.len());
        let pending = state.lanes[lane].pending.count();
        let commit = random.once_in(if 2 * number < count { commits } else { 2 });
        let choice = if commit { 1 + random.below(pending + 1) } else { 0 };
        moves.extend([lane as u8, choice as u8]);
        if let Turn::Done(next, _) = program.turn(&state, lane, choice) {
            state = next;
        }
    }
    moves
}

/// Each lane carries out all it can, so that its list is as long as it gets, then commits from the far end.
pub fn piled_schedule(random: &mut Random, lanes: usize, records: usize, highest: u8) -> Vec<u8> {
    let mut moves = Vec::new();
    for lane in 0..lanes as u8 {
        moves.extend([lane, 0].repeat(records.min(64) + random.below(3)));
        moves.extend([lane, highest, lane, random.below(usize::from(highest)) as u8 + 1]);
    }
    moves
}
