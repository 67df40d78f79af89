//! Writes kernel files from lanes of steps, for the generator of random kernels and for the assembler.

/// One record, its SKIP target given as a position in its chain; the chain's length or more is the end.
#[derive(Clone, Copy, Debug, Default)]
pub struct Step {
    pub operation: u8,
    pub a: u8,
    pub b: u8,
    pub constant: u32,
    pub target: Option<usize>,
}

#[derive(Clone, Debug)]
pub struct Draft {
    pub locations: u8,
    pub locks: u8,
    pub mask: u16,
    pub lanes: Vec<Vec<Step>>,
}

impl Draft {
    pub fn count(&self) -> usize {
        self.lanes.iter().map(Vec::len).sum()
    }

    /// The file with its records numbered lane after lane.
    pub fn file(&self) -> Vec<u8> {
        self.file_numbered(&(1..=self.count()).collect::<Vec<_>>())
    }

    /// The file with the given record numbers, in the order lane after lane.
    pub fn file_numbered(&self, numbers: &[usize]) -> Vec<u8> {
        let mut file = vec![self.lanes.len() as u8, self.locations, self.locks, 0];
        file.extend(self.mask.to_le_bytes());
        file.extend((self.count() as u16).to_le_bytes());
        file.resize(16 + 12 * self.count(), 0);
        let mut rest = numbers;
        for (lane, chain) in self.lanes.iter().enumerate() {
            let (own, later) = rest.split_at(chain.len());
            rest = later;
            let number = |position: usize| own.get(position).map_or([0, 0], |number| (*number as u16).to_le_bytes());
            file[8 + 2 * lane..10 + 2 * lane].copy_from_slice(&number(0));
            for (position, step) in chain.iter().enumerate() {
                let mut record = vec![step.operation, step.a, step.b, 0];
                record.extend(step.constant.to_le_bytes());
                record.extend(step.target.map_or([0, 0], number));
                record.extend(number(position + 1));
                let at = 16 + 12 * (own[position] - 1);
                file[at..at + 12].copy_from_slice(&record);
            }
        }
        file
    }
}
