//! Fast implementation: writes a lane's instructions, and the sheet around them.

use super::check::{Kernel, instruction};
use super::flow::Plan;
use super::{MFENCE, Refusal, SKIP, SL, SS};

pub type Instruction = [u8; 8];

/// Operations of LL, LS, SS and SL; only SL is left at level 2, and SS beside it at level 3.
const CODES: [[u8; 4]; 4] = [[0; 4], [11, 12, SS, SL], [0, 0, 0, MFENCE], [0, 0, SS, SL]];

pub fn write<const LEVEL: usize>(kernel: &Kernel, plan: &Plan, sheet: &mut [u8]) -> Result<usize, Refusal> {
    let length = 16 + 8 * plan.counts.iter().map(|count| usize::from(*count)).sum::<usize>();
    let sheet = sheet.get_mut(..length).ok_or(Refusal::new(9, 0))?;
    let (head, body) = sheet.split_at_mut(16);
    head.copy_from_slice(&header::<LEVEL>(kernel, plan));
    write_lanes::<LEVEL>(kernel, plan, body.as_chunks_mut::<8>().0);
    Ok(length)
}

fn header<const LEVEL: usize>(kernel: &Kernel, plan: &Plan) -> [u8; 16] {
    let mut head = kernel.head;
    head[3] = LEVEL as u8;
    if LEVEL >= 2 {
        head[4..6].fill(0);
    }
    head[6..8].fill(0);
    for (field, count) in head[8..].chunks_exact_mut(2).zip(plan.counts) {
        field.copy_from_slice(&count.to_le_bytes());
    }
    head
}

/// Fills the lanes' parts one after another and hands them back; there is room for all of them.
pub fn write_lanes<'a, const LEVEL: usize>(
    kernel: &Kernel,
    plan: &Plan,
    mut rest: &'a mut [Instruction],
) -> [&'a [Instruction]; 4] {
    let mut parts: [&[Instruction]; 4] = [&[]; 4];
    for (lane, part) in parts.iter_mut().enumerate().take(kernel.lanes()) {
        let own;
        (own, rest) = rest.split_at_mut(plan.counts[lane].into());
        write_lane::<LEVEL>(kernel, plan, lane, own);
        *part = own;
    }
    parts
}

/// Fills a part that has exactly the lane's count of instructions.
fn write_lane<const LEVEL: usize>(kernel: &Kernel, plan: &Plan, lane: usize, part: &mut [Instruction]) {
    let start = kernel.ends[lane];
    let mut at = 0;
    for (name, standing) in kernel.chain(lane).iter().zip(&plan.barriers[start..]) {
        let count = standing.count_ones() as usize;
        if LEVEL > 0 {
            // no access has more than two; what is too many here, the next rows overwrite
            part[at] = barrier::<LEVEL>(standing.trailing_zeros());
            part[at + count / 2] = barrier::<LEVEL>(7 - standing.leading_zeros().min(7));
        }
        let record = kernel.record(*name);
        let mut own = instruction(record);
        if record[0] == SKIP {
            own |= u64::from(plan.lands(kernel, lane, record)) << 32;
        }
        part[at + count] = own.to_le_bytes();
        at += count + 1;
    }
}

/// The instruction of the barrier that has this bit.
fn barrier<const LEVEL: usize>(bit: u32) -> Instruction {
    u64::from(CODES[LEVEL][bit as usize % 4]).to_le_bytes()
}
