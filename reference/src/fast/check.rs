//! Fast implementation: refusals 1 to 7, and the chains of a kernel file.

use super::{ADD, LOAD, LOCK, Refusal, SET, SKIP, STORE, UNLOCK};

pub type Record = [u8; 12];

/// A kernel file and its chains. Records are named by their number less one, which fits a byte.
pub struct Kernel<'a> {
    pub head: [u8; 16],
    pub records: &'a [Record],
    /// The records in chain order, lane after lane.
    chain: [u8; 256],
    /// One past a record's index in `chain`; 0 while no lane has met it.
    place: [u16; 256],
    /// Lane t is `chain[ends[t]..ends[t + 1]]`.
    pub ends: [usize; 5],
    /// A bit for each record that is a SKIP.
    skips: [u64; 4],
}

/// Operation, a, b, zero and constant: an instruction as it stands in a sheet, but for a SKIP's target.
pub fn instruction(record: &Record) -> u64 {
    let [low @ .., _, _, _, _] = *record;
    u64::from_le_bytes(low)
}

/// Target and next.
fn links(record: &Record) -> u32 {
    let [_, _, _, _, _, _, _, _, high @ ..] = *record;
    u32::from_le_bytes(high)
}

fn target(record: &Record) -> usize {
    (links(record) as u16).into()
}

fn next(record: &Record) -> usize {
    (links(record) >> 16) as usize
}

/// What an operation allows in its fields.
#[derive(Clone, Copy)]
struct Limits {
    a: u8,
    b_end: u8,
    constant: u32,
    target: u16,
}

impl<'a> Kernel<'a> {
    pub fn blank() -> Self {
        Kernel { head: [0; 16], records: &[], chain: [0; 256], place: [0; 256], ends: [0; 5], skips: [0; 4] }
    }

    pub fn lanes(&self) -> usize {
        self.head[0].into()
    }

    pub fn mask(&self) -> u16 {
        u16::from_le_bytes([self.head[4], self.head[5]])
    }

    fn lane_head(&self, lane: usize) -> usize {
        u16::from_le_bytes([self.head[8 + 2 * lane], self.head[9 + 2 * lane]]).into()
    }

    /// The records of a lane.
    pub fn chain(&self, lane: usize) -> &[u8] {
        &self.chain[self.ends[lane]..self.ends[lane + 1]]
    }

    pub fn record(&self, name: u8) -> &'a Record {
        &self.records[usize::from(name)]
    }

    /// The index in `chain` of a record that some lane has met.
    fn index(&self, number: usize) -> usize {
        usize::from(self.place[number - 1]) - 1
    }

    /// Where a SKIP of the lane that starts there lands: a position in the chain, or 64 for the end.
    pub fn landing(&self, skip: &Record, start: usize) -> usize {
        match target(skip) {
            0 => 64,
            number => (self.index(number) - start) & 63,
        }
    }

    pub fn check(&mut self, file: &'a [u8]) -> Result<(), Refusal> {
        let (head, body) = file.split_first_chunk::<16>().ok_or(Refusal::new(1, 0))?;
        self.head = *head;
        let count = self.check_head().ok_or(Refusal::new(2, 0))?;
        let (records, rest) = body.as_chunks::<12>();
        if records.len() != count || !rest.is_empty() {
            return Err(Refusal::new(3, 0));
        }
        self.records = records;
        self.check_records()?;
        self.walk()?;
        self.check_lengths()?;
        self.check_skips()
    }

    /// The record count, if every header field keeps its rule.
    fn check_head(&self) -> Option<usize> {
        let [lanes, locations, locks, zero, ..] = self.head;
        let count = u16::from_le_bytes([self.head[6], self.head[7]]).into();
        let sizes = (1..=4).contains(&lanes) && (1..=16).contains(&locations) && locks <= 4 && zero == 0;
        let heads = || (0..4).all(|lane| self.lane_head(lane) <= if lane < self.lanes() { count } else { 0 });
        (sizes && u32::from(self.mask()) >> locations == 0 && count <= 256 && heads()).then_some(count)
    }

    fn limits(&self) -> [Limits; 8] {
        let none = Limits { a: 0, b_end: 1, constant: 0, target: 0 };
        let mut limits = [none; 8];
        limits[usize::from(SET)] = Limits { a: 7, constant: u32::MAX, ..none };
        limits[usize::from(ADD)] = Limits { a: 7, b_end: 8, ..none };
        limits[usize::from(LOAD)] = Limits { a: 7, b_end: self.head[1], ..none };
        limits[usize::from(STORE)] = Limits { a: 7, b_end: self.head[1], ..none };
        limits[usize::from(LOCK)] = Limits { b_end: self.head[2], ..none };
        limits[usize::from(UNLOCK)] = Limits { b_end: self.head[2], ..none };
        limits[usize::from(SKIP)] = Limits { a: 7, target: self.records.len() as u16, ..none };
        limits
    }

    fn check_records(&mut self) -> Result<(), Refusal> {
        let limits = self.limits();
        let count = self.records.len() as u16;
        for (index, record) in self.records.iter().enumerate() {
            let (low, high) = (instruction(record), links(record));
            let operation = low as u8;
            let limit = limits[usize::from(operation & 7)];
            let lawful = (operation.wrapping_sub(1) < 7)
                & ((low >> 8) as u8 <= limit.a)
                & (((low >> 16) as u8) < limit.b_end)
                & ((low >> 24) as u8 == 0)
                & ((low >> 32) as u32 <= limit.constant)
                & (high as u16 <= limit.target)
                & ((high >> 16) as u16 <= count);
            if !lawful {
                return Err(Refusal::new(4, index + 1));
            }
            self.skips[index / 64 % 4] |= u64::from(operation == SKIP) << (index % 64);
        }
        Ok(())
    }

    fn walk(&mut self) -> Result<(), Refusal> {
        let mut met = 0;
        for lane in 0..self.lanes() {
            let mut number = self.lane_head(lane);
            while number != 0 {
                let place = &mut self.place[number - 1];
                if *place != 0 {
                    return Err(Refusal::new(5, number));
                }
                self.chain[met] = (number - 1) as u8;
                met += 1;
                *place = met as u16;
                number = next(&self.records[number - 1]);
            }
            self.ends[lane + 1] = met;
        }
        if met == self.records.len() {
            return Ok(());
        }
        let left_over = self.place.iter().position(|place| *place == 0).map_or(0, |index| index + 1);
        Err(Refusal::new(5, left_over))
    }

    fn check_lengths(&self) -> Result<(), Refusal> {
        let long = (0..self.lanes()).find(|lane| self.ends[lane + 1] - self.ends[*lane] > 64);
        long.map_or(Ok(()), |lane| Err(Refusal::new(6, usize::from(self.chain[self.ends[lane] + 64]) + 1)))
    }

    fn check_skips(&self) -> Result<(), Refusal> {
        for (group, bits) in self.skips.iter().enumerate() {
            let mut left = *bits;
            while left != 0 {
                let number = group * 64 + left.trailing_zeros() as usize + 1;
                left &= left - 1;
                if !self.lands(number) {
                    return Err(Refusal::new(7, number));
                }
            }
        }
        Ok(())
    }

    /// Whether a SKIP's target is later in its own chain, or zero.
    fn lands(&self, number: usize) -> bool {
        let target = target(&self.records[number - 1]);
        if target == 0 {
            return true;
        }
        let (from, to) = (self.index(number), self.index(target));
        let end = self.ends[1..=self.lanes()].iter().copied().find(|end| from < *end).unwrap_or(0);
        from < to && to < end
    }
}
