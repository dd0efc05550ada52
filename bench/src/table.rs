//! A table in lent slices.
use kohlenfloh::Record;

/// A table in lent slices, with its record.
#[derive(Clone)]
pub struct Table {
    pub record: Record,
    pub keys: Vec<u32>,
    pub weights: Vec<u32>,
}

impl Table {
    /// An empty table with this room, every place written once.
    pub fn empty(room: usize) -> Table {
        Table { record: Record::default(), keys: vec![1; room], weights: vec![1; room] }
    }

    /// How many entries are used.
    pub fn used(&self) -> usize {
        self.record.used as usize
    }

    /// The record and the used entries.
    pub fn contents(&self) -> (Record, &[u32], &[u32]) {
        (self.record, &self.keys[..self.used()], &self.weights[..self.used()])
    }
}
