//! Slow implementation: the kernel file of paper 01 and its refusals, in the order of the table: 1 to 8, then 12.

use super::locks::{lock_fault, lock_order};
use std::collections::BTreeSet;

/// A number of the table of refusals and the record it names, 0 where none is named.
#[derive(Clone, Copy, Debug, PartialEq, Eq)]
pub struct Refusal {
    pub number: u64,
    pub record: usize,
}

pub const SET: u8 = 1;
pub const ADD: u8 = 2;
pub const LOAD: u8 = 3;
pub const STORE: u8 = 4;
pub const LOCK: u8 = 5;
pub const UNLOCK: u8 = 6;
pub const SKIP: u8 = 7;

#[derive(Clone, Debug)]
pub struct Header {
    pub lanes: usize,
    pub locations: usize,
    pub locks: usize,
    pub zero: u8,
    pub mask: u16,
    pub count: usize,
    pub heads: Vec<usize>,
}

#[derive(Clone, Copy, Debug)]
pub struct Record {
    pub operation: u8,
    pub a: u8,
    pub b: u8,
    pub zero: u8,
    pub constant: u32,
    pub target: usize,
    pub next: usize,
}

/// An accepted kernel. A chain holds the numbers of its records.
#[derive(Clone, Debug)]
pub struct Kernel {
    pub header: Header,
    pub records: Vec<Record>,
    pub chains: Vec<Vec<usize>>,
}

impl Kernel {
    pub fn at(&self, lane: usize, position: usize) -> Record {
        self.records[self.chains[lane][position] - 1]
    }

    pub fn length(&self, lane: usize) -> usize {
        self.chains[lane].len()
    }

    pub fn volatile(&self, location: u8) -> bool {
        self.header.mask >> location & 1 == 1
    }

    /// Where a SKIP's target stands in the lane; zero is the lane's end.
    pub fn place(&self, lane: usize, target: usize) -> usize {
        self.chains[lane].iter().position(|number| *number == target).unwrap_or(self.length(lane))
    }

    /// Positions that may follow: "both ways at each SKIP, register values ignored".
    pub fn ways(&self, lane: usize, position: usize) -> BTreeSet<usize> {
        let record = self.at(lane, position);
        let skipped = (record.operation == SKIP).then(|| self.place(lane, record.target));
        skipped.into_iter().chain([position + 1]).collect()
    }
}

/// "The check comes right after 8": of every lane.
pub fn check(file: &[u8]) -> Result<Kernel, Refusal> {
    let kernel = check_to_8(file)?;
    lock_order(&kernel)?;
    Ok(kernel)
}

/// Without request 6.
pub fn check_to_8(file: &[u8]) -> Result<Kernel, Refusal> {
    let kernel = check_to_7(file)?;
    lock_fault(&kernel)?;
    Ok(kernel)
}

/// Without the rules of held sets.
pub fn check_to_7(file: &[u8]) -> Result<Kernel, Refusal> {
    truncated_header(file)?;
    let header = bad_header(file)?;
    bad_length(file, &header)?;
    let records = bad_record(file, &header)?;
    let chains = bad_linkage(&header, &records)?;
    chain_too_long(&chains)?;
    let kernel = Kernel { header, records, chains };
    bad_target(&kernel)?;
    Ok(kernel)
}

pub fn refuse<T>(number: u64, record: usize) -> Result<T, Refusal> {
    Err(Refusal { number, record })
}

fn refuse_if(broken: bool, number: u64) -> Result<(), Refusal> {
    if broken { refuse(number, 0) } else { Ok(()) }
}

fn word(bytes: &[u8], at: usize) -> u16 {
    u16::from_le_bytes([bytes[at], bytes[at + 1]])
}

fn index(bytes: &[u8], at: usize) -> usize {
    usize::from(word(bytes, at))
}

fn truncated_header(file: &[u8]) -> Result<(), Refusal> {
    refuse_if(file.len() < 16, 1)
}

fn bad_header(file: &[u8]) -> Result<Header, Refusal> {
    let header = Header {
        lanes: file[0].into(),
        locations: file[1].into(),
        locks: file[2].into(),
        zero: file[3],
        mask: word(file, 4),
        count: index(file, 6),
        heads: (0..4).map(|lane| index(file, 8 + 2 * lane)).collect(),
    };
    let rules = (1..=4).contains(&header.lanes)
        && (1..=16).contains(&header.locations)
        && header.locks <= 4
        && header.zero == 0
        && u32::from(header.mask) < 1 << header.locations
        && header.count <= 256
        && header.heads.iter().all(|head| *head <= header.count)
        && header.heads.iter().skip(header.lanes).all(|head| *head == 0);
    refuse_if(!rules, 2)?;
    Ok(header)
}

fn bad_length(file: &[u8], header: &Header) -> Result<(), Refusal> {
    refuse_if(file.len() != 16 + 12 * header.count, 3)
}

fn bad_record(file: &[u8], header: &Header) -> Result<Vec<Record>, Refusal> {
    let records: Vec<Record> = file[16..].chunks(12).map(read_record).collect();
    match records.iter().position(|record| !lawful(record, header)) {
        Some(before) => refuse(4, before + 1),
        None => Ok(records),
    }
}

fn read_record(bytes: &[u8]) -> Record {
    Record {
        operation: bytes[0],
        a: bytes[1],
        b: bytes[2],
        zero: bytes[3],
        constant: u32::from_le_bytes([bytes[4], bytes[5], bytes[6], bytes[7]]),
        target: index(bytes, 8),
        next: index(bytes, 10),
    }
}

fn lawful(record: &Record, header: &Header) -> bool {
    let fields: &[char] = match record.operation {
        SET => &['a', 'c'],
        ADD | LOAD | STORE => &['a', 'b'],
        LOCK | UNLOCK => &['b'],
        SKIP => &['a', 't'],
        _ => return false,
    };
    let unused_zero =
        [('a', record.a.into()), ('b', record.b.into()), ('c', record.constant), ('t', record.target as u32)]
            .iter()
            .all(|(field, value)| fields.contains(field) || *value == 0);
    let operands = match record.operation {
        ADD => 8,
        LOAD | STORE => header.locations,
        LOCK | UNLOCK => header.locks,
        _ => 1,
    };
    unused_zero
        && record.zero == 0
        && record.a <= 7
        && usize::from(record.b) < operands
        && record.target <= header.count
        && record.next <= header.count
}

fn bad_linkage(header: &Header, records: &[Record]) -> Result<Vec<Vec<usize>>, Refusal> {
    let mut met = BTreeSet::new();
    let mut chains = Vec::new();
    for head in header.heads.iter().take(header.lanes) {
        let mut chain = Vec::new();
        let mut number = *head;
        while number != 0 {
            if !met.insert(number) {
                return refuse(5, number);
            }
            chain.push(number);
            number = records[number - 1].next;
        }
        chains.push(chain);
    }
    match (1..=header.count).find(|number| !met.contains(number)) {
        Some(left_over) => refuse(5, left_over),
        None => Ok(chains),
    }
}

fn chain_too_long(chains: &[Vec<usize>]) -> Result<(), Refusal> {
    match chains.iter().find(|chain| chain.len() > 64) {
        Some(chain) => refuse(6, chain[64]),
        None => Ok(()),
    }
}

fn bad_target(kernel: &Kernel) -> Result<(), Refusal> {
    let bad = |chain: &Vec<usize>| -> Vec<usize> {
        let later = |position: usize, target: &usize| chain[position + 1..].contains(target);
        let skips = chain.iter().enumerate().filter(|(_, number)| kernel.records[**number - 1].operation == SKIP);
        skips
            .map(|(position, number)| (position, *number, kernel.records[*number - 1].target))
            .filter(|(position, _, target)| *target != 0 && !later(*position, target))
            .map(|(_, number, _)| number)
            .collect()
    };
    match kernel.chains.iter().flat_map(bad).min() {
        Some(lowest) => refuse(7, lowest),
        None => Ok(()),
    }
}
