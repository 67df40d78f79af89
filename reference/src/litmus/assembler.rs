//! Assembler for the notation of the litmus tables: `x=1; r0=y`, `lock l; r1+=r2; unlock l`, `skip r0 C; C:`.

use crate::slow::kernel::{ADD, LOAD, LOCK, SET, SKIP, STORE, UNLOCK};
use crate::writer::{Draft, Step};

/// Lanes with their locations by name; location i is the i-th name.
#[derive(Clone, Debug)]
pub struct Assembled {
    pub names: Vec<String>,
    lanes: Vec<Vec<Step>>,
    locks: u8,
}

/// Lanes are parted by `‖`, locations named in their order.
pub fn assemble(names: &str, lanes: &str) -> Result<Assembled, String> {
    let names: Vec<String> = names.split_whitespace().map(str::to_string).collect();
    let lanes = lanes.split('‖').map(|text| Lane::read(&names, text)).collect::<Result<Vec<_>, _>>()?;
    let locks = lanes.iter().flatten().filter(|step| matches!(step.operation, LOCK | UNLOCK)).map(|step| step.b + 1);
    Ok(Assembled { locks: locks.max().unwrap_or(0), names, lanes })
}

impl Assembled {
    pub fn file(&self, mask: u16) -> Vec<u8> {
        let locations = self.names.len() as u8;
        Draft { locations, locks: self.locks, mask, lanes: self.lanes.clone() }.file()
    }

    /// The mask of a set such as `{x y}`.
    pub fn mask(&self, set: &str) -> Result<u16, String> {
        let names = set.trim_start_matches('{').trim_end_matches('}').split_whitespace();
        names.map(|name| location(&self.names, name).map(|location| 1 << location)).sum()
    }

    /// A mask written as such a set.
    pub fn set(&self, mask: u16) -> String {
        let names = self.names.iter().enumerate().filter(|(location, _)| mask >> location & 1 == 1);
        format!("{{{}}}", names.map(|(_, name)| name.as_str()).collect::<Vec<_>>().join(" "))
    }
}

pub fn location(names: &[String], name: &str) -> Result<u8, String> {
    let place = names.iter().position(|known| known == name);
    place.map(|place| place as u8).ok_or_else(|| format!("no location {name}"))
}

pub fn register(word: &str) -> Option<u8> {
    word.strip_prefix('r')?.parse().ok().filter(|register| *register < 8)
}

/// A constant, modulo 2^32 when it is negative.
pub fn constant(word: &str) -> Result<u32, String> {
    word.parse::<i64>().map(|value| value as u32).map_err(|_| format!("no constant {word}"))
}

struct Lane<'a> {
    names: &'a [String],
    steps: Vec<Step>,
    labels: Vec<(String, usize)>,
    /// Positions of SKIPs with the labels they name.
    skips: Vec<(usize, String)>,
}

impl<'a> Lane<'a> {
    fn read(names: &'a [String], text: &str) -> Result<Vec<Step>, String> {
        let mut lane = Lane { names, steps: Vec::new(), labels: Vec::new(), skips: Vec::new() };
        for item in text.split(';').map(str::trim).filter(|item| !item.is_empty()) {
            lane.item(item).map_err(|fault| format!("{fault} in '{item}'"))?;
        }
        lane.labels.push(("end".to_string(), lane.steps.len()));
        for (position, label) in &lane.skips {
            let found = lane.labels.iter().find(|(name, _)| name == label);
            lane.steps[*position].target = Some(found.ok_or_else(|| format!("no label {label}"))?.1);
        }
        Ok(lane.steps)
    }

    fn item(&mut self, item: &str) -> Result<(), String> {
        if let Some(label) = item.strip_suffix(':') {
            self.labels.push((label.to_string(), self.steps.len()));
            return Ok(());
        }
        match item.split_whitespace().collect::<Vec<_>>()[..] {
            ["lock", name] => self.put(LOCK, 0, lock(name)?, 0),
            ["unlock", name] => self.put(UNLOCK, 0, lock(name)?, 0),
            ["mfence", name] => self.fence(location(self.names, name)?),
            ["skip", from, label] => {
                self.skips.push((self.steps.len(), label.to_string()));
                self.put(SKIP, register(from).ok_or("no register")?, 0, 0);
            }
            [word] => return self.equation(word),
            _ => return Err("unknown words".to_string()),
        }
        Ok(())
    }

    fn equation(&mut self, word: &str) -> Result<(), String> {
        let (left, right) = word.split_once('=').ok_or("no equation")?;
        let added = left.strip_suffix('+');
        let (into, from) = (register(added.unwrap_or(left)), register(right));
        match (into, from) {
            (Some(a), Some(b)) if added.is_some() => self.put(ADD, a, b, 0),
            (Some(a), None) => match location(self.names, right) {
                Ok(place) => self.put(LOAD, a, place, 0),
                Err(_) => self.put(SET, a, 0, constant(right)?),
            },
            (None, Some(a)) => self.put(STORE, a, location(self.names, left)?, 0),
            (None, None) => {
                self.put(SET, 7, 0, constant(right)?);
                self.put(STORE, 7, location(self.names, left)?, 0);
            }
            _ => return Err("unknown equation".to_string()),
        }
        Ok(())
    }

    /// A volatile store and load of a private volatile location: SL, hence MFENCE, stands between them.
    fn fence(&mut self, place: u8) {
        self.put(SET, 7, 0, 1);
        self.put(STORE, 7, place, 0);
        self.put(LOAD, 7, place, 0);
    }

    fn put(&mut self, operation: u8, a: u8, b: u8, constant: u32) {
        self.steps.push(Step { operation, a, b, constant, target: None });
    }
}

/// `l` and `l0` are lock 0, `l1` is lock 1.
fn lock(name: &str) -> Result<u8, String> {
    let digits = name.strip_prefix('l').ok_or("no lock")?;
    if digits.is_empty() { Ok(0) } else { digits.parse().map_err(|_| format!("no lock {name}")) }
}
