//! Slow implementation: a lane's list of pending stores, in which the SS marks of request 4 of paper 02 have their
//! places.

/// An entry of the list.
#[derive(Clone, Copy, Debug, PartialEq, Eq, PartialOrd, Ord)]
pub enum Entry {
    Store { location: u8, value: u32 },
    Release { lock: u8 },
}

impl Entry {
    /// "the same location or lock"
    pub fn same(self, other: Entry) -> bool {
        match (self, other) {
            (Entry::Store { location: one, .. }, Entry::Store { location: two, .. }) => one == two,
            (Entry::Release { lock: one }, Entry::Release { lock: two }) => one == two,
            _ => false,
        }
    }
}

/// What stands in the list: an entry, or the mark of an SS. Only the pso machine has marks.
#[derive(Clone, Copy, Debug, PartialEq, Eq, PartialOrd, Ord)]
pub enum Item {
    Entry(Entry),
    Mark,
}

impl Item {
    fn entry(&self) -> Option<Entry> {
        match self {
            Item::Entry(entry) => Some(*entry),
            Item::Mark => None,
        }
    }
}

/// Oldest first.
#[derive(Clone, Debug, Default, PartialEq, Eq, PartialOrd, Ord)]
pub struct Pending {
    items: Vec<Item>,
}

impl Pending {
    /// Without the marks: "A move's choice counts entries and not marks".
    pub fn entries(&self) -> impl DoubleEndedIterator<Item = Entry> {
        self.items.iter().filter_map(Item::entry)
    }

    pub fn count(&self) -> usize {
        self.entries().count()
    }

    pub fn is_empty(&self) -> bool {
        self.count() == 0
    }

    pub fn append(&mut self, entry: Entry) {
        self.items.push(Item::Entry(entry));
    }

    /// "An SS mark with nothing pending before it, or right after another mark, leaves no mark"
    pub fn mark(&mut self) {
        let after_a_mark = self.items.last() == Some(&Item::Mark);
        if !self.is_empty() && !after_a_mark {
            self.items.push(Item::Mark);
        }
    }

    /// The entry that has so many older ones, with all that is older than it.
    pub fn nth(&self, index: usize) -> Option<(&[Item], Entry)> {
        let at = self.place(index)?;
        self.items[at].entry().map(|entry| (&self.items[..at], entry))
    }

    /// Takes that entry out. "a mark that becomes the oldest vanishes"
    pub fn remove(&mut self, index: usize) {
        if let Some(at) = self.place(index) {
            self.items.remove(at);
        }
        while self.items.first() == Some(&Item::Mark) {
            self.items.remove(0);
        }
    }

    /// The entries, each with whether a mark stands directly behind it.
    pub fn marked(&self) -> Vec<(Entry, bool)> {
        let behind = |at: usize| self.items.get(at + 1) == Some(&Item::Mark);
        let items = self.items.iter().enumerate();
        items.filter_map(|(at, item)| item.entry().map(|entry| (entry, behind(at)))).collect()
    }

    fn place(&self, index: usize) -> Option<usize> {
        (0..self.items.len()).filter(|at| self.items[*at].entry().is_some()).nth(index)
    }
}
