//! What is asked of a call: the values and slices handed in.
use kohlenfloh::Record;

use crate::outcome::Outcome;

/// A table as it is lent: the record, keys and weights.
#[derive(Clone, Debug)]
pub struct Table {
    pub record: Record,
    pub keys: Vec<u32>,
    pub weights: Vec<u32>,
}

impl Table {
    /// The used entries of a good table, as a number.
    pub fn used(&self) -> usize {
        self.record.used as usize
    }

    /// The table that an add left.
    pub fn left_by(add: &Outcome) -> Table {
        let record = add.longs("record").try_into().expect("a record has its places");
        Table {
            record: Record::from_array(record),
            keys: add.words("keys").to_vec(),
            weights: add.words("weights").to_vec(),
        }
    }
}

/// Adding a strip to a table.
#[derive(Clone, Debug)]
pub struct Add {
    pub table: Table,
    pub strip: Vec<u8>,
}

/// The two searches of a single round.
#[derive(Clone, Copy, Debug, PartialEq)]
pub enum Search {
    Plain,
    Shortened,
}

/// A single round by one of the searches.
#[derive(Clone, Debug)]
pub struct Round {
    pub search: Search,
    pub table: Table,
    pub coordinates: Vec<u32>,
    pub members: Vec<u32>,
}

/// The two rules by which a shade with a group moves in a run: to the mean of its group, and past it.
#[derive(Clone, Copy, PartialEq)]
pub enum Rule {
    Lloyd,
    Jancey,
}

/// A run.
#[derive(Clone, Debug)]
pub struct Run {
    pub table: Table,
    pub count: usize,
    pub limit: usize,
    pub members: Vec<u32>,
    pub totals: Vec<u64>,
}

/// A run with fixed shades, three bytes each.
#[derive(Clone, Debug)]
pub struct RunFixed {
    pub run: Run,
    pub fixed: Vec<u8>,
}

/// A palette from shades.
#[derive(Clone, Debug)]
pub struct Palette {
    pub coordinates: Vec<u32>,
    pub palette: Vec<u8>,
}

/// A palette from groups, with the number of fixed shades.
#[derive(Clone, Debug)]
pub struct PaletteFromGroups {
    pub table: Table,
    pub coordinates: Vec<u32>,
    pub members: Vec<u32>,
    pub fixed: usize,
    pub palette: Vec<u8>,
}

/// Mapping a strip into its stretch of the index picture.
#[derive(Clone, Debug)]
pub struct Map {
    pub strip: Vec<u8>,
    pub palette: Vec<u8>,
    pub index: Vec<u8>,
    pub first: usize,
}

/// Reading a P6 picture.
#[derive(Clone, Debug)]
pub struct Picture {
    pub input: Vec<u8>,
}
