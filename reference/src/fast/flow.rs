//! Fast implementation: one forward pass a lane for held sets (refusals 8 and 12) and barriers.

use super::check::{Kernel, Record};
use super::{LOAD, LOCK, Refusal, SKIP, STORE, UNLOCK};

const LL: u8 = 1;
const LS: u8 = 2;
const SS: u8 = 4;
const SL: u8 = 8;

/// The cookbook table: rows are the first access's class, columns the second's, in the order PL, PS, VL, VS.
const CELLS: [[u8; 4]; 4] = [[0, 0, 0, LS], [0, 0, 0, SS], [LL, LS, LL, LS], [0, 0, SL, SS]];

/// The barriers of the table with the classes of first accesses that ask for them, a bit of `Ways::live` for each.
const ASKS: [(u8, usize); 6] = [(LL, 2), (LS, 0), (LS, 2), (SS, 1), (SS, 3), (SL, 3)];

/// Passing an access: what is live behind it, and the barriers that stand before it.
#[derive(Clone, Copy)]
struct Pass {
    live: u8,
    standing: u8,
}

/// By the class of the access and what is live before it. Class 4 is for records that are no access.
const PASSES: [[Pass; 64]; 5] = {
    let mut passes = [[Pass { live: 0, standing: 0 }; 64]; 5];
    let mut case = 0;
    while case < 5 * 64 {
        passes[case / 64][case % 64] = pass(case / 64, (case % 64) as u8);
        case += 1;
    }
    passes
};

const fn pass(class: usize, live: u8) -> Pass {
    if class == 4 {
        return Pass { live, standing: 0 };
    }
    let mut standing = 0;
    let mut bit = 0;
    while bit < 6 {
        let (barrier, first) = ASKS[bit];
        if live >> bit & 1 == 1 && CELLS[first][class] == barrier {
            standing |= barrier;
        }
        bit += 1;
    }
    let mut behind = live;
    bit = 0;
    while bit < 6 {
        let (barrier, first) = ASKS[bit];
        if first == class {
            behind |= 1 << bit;
        } else if standing & barrier != 0 {
            behind &= !(1 << bit);
        }
        bit += 1;
    }
    Pass { live: behind, standing }
}

/// Barriers that a level keeps; level 0 is the bare chain.
const KEPT: [u8; 4] = [0, LL | LS | SS | SL, SL, SS | SL];

/// Of these, what a level leaves out directly before a LOCK.
const LEFT_OUT: [u8; 4] = [0, 0, SL, SL];

/// Where everything of a sheet goes.
pub struct Plan {
    /// The kept barriers before each record in chain order, a bit for each.
    pub barriers: [u8; 256],
    /// Position in its lane of the first of these barriers, or of the instruction itself.
    pub starts: [u16; 256],
    /// Instructions of each lane.
    pub counts: [u16; 4],
}

/// What is known of the ways that lead to a position; no way is all zero.
#[derive(Clone, Copy, Default)]
struct Ways {
    /// A bit for each of `ASKS`: such an access comes here by a path with no such barrier on it since.
    live: u8,
    /// Locks that some way holds, and locks that some way does not hold.
    held: u8,
    lacked: u8,
}

impl Plan {
    pub fn blank() -> Self {
        Plan { barriers: [0; 256], starts: [0; 256], counts: [0; 4] }
    }

    /// Refusal 12 comes after 8 of every lane.
    pub fn lay<const LEVEL: usize>(&mut self, kernel: &Kernel) -> Result<(), Refusal> {
        let mut falling = 0;
        for lane in 0..kernel.lanes() {
            let own = self.lay_lane::<LEVEL>(kernel, lane)?;
            falling = if falling == 0 { own } else { falling };
        }
        if falling == 0 { Ok(()) } else { Err(Refusal::new(12, falling)) }
    }

    /// The number of the record that stands at this position of a lane.
    pub fn record_at(&self, kernel: &Kernel, lane: usize, position: usize) -> usize {
        let start = kernel.ends[lane];
        let own = |index: usize| usize::from(self.starts[index]) + self.barriers[index].count_ones() as usize;
        let found = kernel.chain(lane).iter().zip(start..).find(|(_, index)| own(*index) == position);
        found.map_or(0, |(name, _)| usize::from(*name) + 1)
    }

    /// The position in its lane where a SKIP lands.
    pub fn lands(&self, kernel: &Kernel, lane: usize, skip: &Record) -> u16 {
        let start = kernel.ends[lane];
        match kernel.landing(skip, start) {
            64 => self.counts[lane],
            position => self.starts[start + position],
        }
    }

    /// The number of the first LOCK in the lane that takes a lock below a held one, 0 if there is none.
    fn lay_lane<const LEVEL: usize>(&mut self, kernel: &Kernel, lane: usize) -> Result<usize, Refusal> {
        let chain = kernel.chain(lane);
        let (start, mask) = (kernel.ends[lane], kernel.mask());
        // by the SKIPs; the last is the lane's end
        let mut skipped = [Ways::default(); 65];
        let mut ways = Ways { live: 0, held: 0, lacked: 0xff };
        let mut count = 0;
        let mut first = 0;
        for (position, name) in chain.iter().enumerate() {
            let record = kernel.record(*name);
            ways.join(skipped[position & 63]);
            if ways.falls(record) && first == 0 {
                first = usize::from(*name) + 1;
            }
            if !ways.take_lock(record) {
                return Err(Refusal::new(8, usize::from(*name) + 1));
            }
            let pass = PASSES[class(record, mask)][usize::from(ways.live & 63)];
            ways.live = pass.live;
            let left_out = u8::from(record[0] == LOCK) * LEFT_OUT[LEVEL];
            let standing = pass.standing & (KEPT[LEVEL] ^ left_out);
            self.barriers[start + position] = standing;
            self.starts[start + position] = count;
            count += 1 + standing.count_ones() as u16;
            if record[0] == SKIP {
                skipped[kernel.landing(record, start)].join(ways);
            }
        }
        self.counts[lane] = count;
        match chain.last() {
            Some(last) if ways.held | skipped[64].held != 0 => Err(Refusal::new(8, usize::from(*last) + 1)),
            _ => Ok(first),
        }
    }
}

impl Ways {
    fn join(&mut self, other: Ways) {
        self.live |= other.live;
        self.held |= other.held;
        self.lacked |= other.lacked;
    }

    /// Whether a LOCK takes a lock that is not above all that are held.
    fn falls(&self, record: &Record) -> bool {
        record[0] == LOCK && self.held >> (record[2] & 3) > 0
    }

    /// Carries a LOCK or UNLOCK into the held set; false where the rule of held sets breaks.
    fn take_lock(&mut self, record: &Record) -> bool {
        let lock = 1 << (record[2] & 3);
        let (takes, gives) = (record[0] == LOCK, record[0] == UNLOCK);
        let needed_lacking = if takes { lock } else { 0 };
        let needed_held = if gives { lock } else { 0 };
        let broken = self.held & self.lacked | self.held & needed_lacking | self.lacked & needed_held;
        self.held ^= needed_lacking | needed_held;
        self.lacked ^= needed_lacking | needed_held;
        broken == 0
    }
}

/// By operation, the class of an access to a plain location and to a volatile one: PL, PS, VL, VS are 0 to 3.
const CLASSES: [[u8; 2]; 8] = {
    let mut classes = [[4, 4]; 8];
    classes[LOAD as usize] = [0, 2];
    classes[STORE as usize] = [1, 3];
    classes[LOCK as usize] = [2, 2];
    classes[UNLOCK as usize] = [3, 3];
    classes
};

fn class(record: &Record, mask: u16) -> usize {
    let volatile = mask >> (record[2] & 15) & 1;
    CLASSES[usize::from(record[0] & 7)][usize::from(volatile)].into()
}
