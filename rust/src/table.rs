//! The weighted colour table: each colour once, with the pixels that have it.
use std::fmt;

use crate::calls;
use crate::raw::{KF_RECORD_BLUE, KF_RECORD_GREEN, KF_RECORD_PIXELS, KF_RECORD_PLACES, KF_RECORD_RED, KF_RECORD_USED};
use crate::refusal::Refusal;

/// How much of a table is used: its entries, the pixels they stand for, and the channel sums, which are those of weight
/// times level over the used entries, in whole levels. The default is that of an empty table.
///
/// It is made by [`Record::new`] and read by its fields.
///
/// ```
/// use kohlenfloh::Record;
///
/// // Three pixels (0,0,0) and one pixel (10,0,0).
/// let record = Record::new(2, 4, [10, 0, 0]);
/// assert_eq!((record.used, record.pixels), (2, 4));
/// assert_eq!((record.red, record.green, record.blue), (10, 0, 0));
/// assert_eq!(Record::default(), Record::new(0, 0, [0; 3]));
/// ```
#[derive(Clone, Copy, Debug, Default, PartialEq, Eq, Hash)]
#[non_exhaustive]
pub struct Record {
    /// Used entries.
    pub used: u64,
    /// Pixels, the sum of the used weights.
    pub pixels: u64,
    /// The sum of weight times level R over the used entries.
    pub red: u64,
    /// That of G.
    pub green: u64,
    /// That of B.
    pub blue: u64,
}

impl Record {
    /// A record of so many used entries and so many pixels, with the sums of R, G and B.
    pub const fn new(used: u64, pixels: u64, [red, green, blue]: [u64; 3]) -> Record {
        Record { used, pixels, red, green, blue }
    }

    /// The record in an array of the boundary, by the places that [`raw`](crate::raw) names.
    #[inline]
    pub fn from_array(array: [u64; KF_RECORD_PLACES]) -> Record {
        let sums = [KF_RECORD_RED, KF_RECORD_GREEN, KF_RECORD_BLUE].map(|place| array[place]);
        Record::new(array[KF_RECORD_USED], array[KF_RECORD_PIXELS], sums)
    }

    /// The record as an array of the boundary.
    ///
    /// ```
    /// use kohlenfloh::{raw, Record};
    ///
    /// let record = Record::new(2, 4, [10, 0, 0]);
    /// let array = record.to_array();
    /// assert_eq!((array[raw::KF_RECORD_USED], array[raw::KF_RECORD_PIXELS]), (2, 4));
    /// assert_eq!(array[raw::KF_RECORD_RED], 10);
    /// assert_eq!(Record::from_array(array), record);
    /// ```
    #[inline]
    pub fn to_array(self) -> [u64; KF_RECORD_PLACES] {
        let mut array = [0; KF_RECORD_PLACES];
        array[KF_RECORD_USED] = self.used;
        array[KF_RECORD_PIXELS] = self.pixels;
        array[KF_RECORD_RED] = self.red;
        array[KF_RECORD_GREEN] = self.green;
        array[KF_RECORD_BLUE] = self.blue;
        array
    }
}

/// A table of colours, filled strip by strip.
///
/// An entry is a key and its weight. The key of colour (R, G, B) is 65536 R + 256 G + B, and keys rise strictly. The
/// weight is the number of pixels of that colour. The order in which pixels come does not matter.
///
/// ```
/// use kohlenfloh::Table;
///
/// let mut table = Table::with_room(16);
/// table.add(&[10, 0, 0, 0, 0, 0])?;
/// table.add(&[0, 0, 0, 0, 0, 0])?;
/// assert_eq!((table.used(), table.pixels(), table.room()), (2, 4, 16));
/// assert_eq!(table.keys(), [0, 655_360]);
/// assert_eq!(table.weights(), [3, 1]);
/// assert!(table.entries().eq([(0, 3), (655_360, 1)]));
/// # Ok::<(), kohlenfloh::Refusal>(())
/// ```
#[derive(Clone)]
pub struct Table {
    record: Record,
    keys: Vec<u32>,
    weights: Vec<u32>,
}

impl Table {
    /// The most entries a table can have, 1,048,576.
    pub const MOST_ENTRIES: usize = 1_048_576;

    /// The most pixels a table can have, 16,777,216.
    pub const MOST_PIXELS: u64 = 16_777_216;

    /// An empty table with room for so many entries; above [`Table::MOST_ENTRIES`] the room is that many.
    ///
    /// ```
    /// use kohlenfloh::Table;
    ///
    /// assert_eq!(Table::with_room(100).room(), 100);
    /// assert_eq!(Table::with_room(usize::MAX).room(), Table::MOST_ENTRIES);
    /// ```
    pub fn with_room(entries: usize) -> Table {
        let room = entries.min(Self::MOST_ENTRIES);
        Table { record: Record::default(), keys: vec![0; room], weights: vec![0; room] }
    }

    /// A table from a record, keys and weights that were stored. Places past the used entries may hold anything.
    ///
    /// The library tests it, as it tests the table at every call.
    ///
    /// ```
    /// use kohlenfloh::{Record, Refusal, RunOptions, Table};
    ///
    /// let record = Record::new(2, 4, [10, 0, 0]);
    /// let table = Table::from_parts(record, vec![0, 655_360], vec![3, 1])?;
    /// assert_eq!(table.run(RunOptions::shades(1))?.totals, [19_200]);
    ///
    /// let twice = Table::from_parts(record, vec![7, 7], vec![3, 1]);
    /// assert_eq!(twice.unwrap_err(), Refusal::BadTable);
    /// let untrue = Table::from_parts(Record::new(2, 4, [11, 0, 0]), vec![0, 655_360], vec![3, 1]);
    /// assert_eq!(untrue.unwrap_err(), Refusal::BadTable);
    /// # Ok::<(), Refusal>(())
    /// ```
    ///
    /// # Refusals
    /// BAD TABLE.
    pub fn from_parts(record: Record, keys: Vec<u32>, weights: Vec<u32>) -> Result<Table, Refusal> {
        let mut table = Table { record, keys, weights };
        table.add(&[])?;
        Ok(table)
    }

    /// A table from keys and weights that were stored without a record or without its sums. Every place is a used
    /// entry, and the record is worked out from them.
    ///
    /// The library tests it, as it tests the table at every call. Keys and weights that are not equally many are no
    /// table.
    ///
    /// ```
    /// use kohlenfloh::{Record, Refusal, Table};
    ///
    /// let table = Table::from_entries(vec![0, 655_360], vec![3, 1])?;
    /// assert_eq!(table.record(), Record::new(2, 4, [10, 0, 0]));
    ///
    /// for (keys, weights) in [(vec![7, 7], vec![3, 1]), (vec![0, 655_360], vec![3]), (vec![7], vec![u32::MAX])] {
    ///     assert_eq!(Table::from_entries(keys, weights).unwrap_err(), Refusal::BadTable);
    /// }
    /// # Ok::<(), Refusal>(())
    /// ```
    ///
    /// # Refusals
    /// BAD TABLE.
    pub fn from_entries(keys: Vec<u32>, weights: Vec<u32>) -> Result<Table, Refusal> {
        let used = keys.len().max(weights.len()) as u64;
        let (mut pixels, mut sums) = (0u64, [0u64; 3]);
        // What stands at a level's place of any key is below 2^16, and a weight is below 2^32. A sum that is too great
        // for 64 bits stays as great as can be; its pixels are too many for a table.
        for (key, weight) in keys.iter().zip(&weights) {
            let weight = u64::from(*weight);
            pixels = pixels.saturating_add(weight);
            for (sum, level) in sums.iter_mut().zip([key >> 16, key >> 8 & 255, key & 255]) {
                *sum = sum.saturating_add(weight * u64::from(level));
            }
        }
        Table::from_parts(Record::new(used, pixels, sums), keys, weights)
    }

    /// Adds the pixels of a strip, three bytes R, G, B each, and answers how many were taken: all of them.
    ///
    /// Each call tests the whole table, which takes about a nanosecond an entry, so long strips serve best.
    ///
    /// ```
    /// use kohlenfloh::{Refusal, Table};
    ///
    /// let mut table = Table::with_room(1);
    /// assert_eq!(table.add(&[1, 2, 3, 1, 2, 3]), Ok(2));
    /// // The second pixel is another colour. The first one stays.
    /// assert_eq!(table.add(&[1, 2, 3, 9, 9, 9, 1, 2, 3]), Err(Refusal::Full { taken: 1 }));
    /// assert_eq!((table.used(), table.pixels()), (1, 3));
    /// ```
    ///
    /// # Refusals
    /// BAD STRIP; FULL, after which the table holds exactly the pixels taken.
    pub fn add(&mut self, strip: &[u8]) -> Result<u64, Refusal> {
        calls::add_strip(&mut self.record, &mut self.keys, &mut self.weights, strip)
    }

    /// How much of the table is used.
    ///
    /// ```
    /// use kohlenfloh::{Record, Table};
    ///
    /// let mut table = Table::with_room(4);
    /// table.add(&[0, 0, 0, 0, 0, 0])?;
    /// assert_eq!(table.record(), Record::new(1, 2, [0; 3]));
    /// # Ok::<(), kohlenfloh::Refusal>(())
    /// ```
    pub fn record(&self) -> Record {
        self.record
    }

    /// The used entries, which is the number of colours.
    pub fn used(&self) -> usize {
        self.record.used as usize
    }

    /// The pixels, which is the sum of the weights.
    pub fn pixels(&self) -> u64 {
        self.record.pixels
    }

    /// The average colour: in each channel the level nearest to the exact mean over all pixels, halves up; none where
    /// there are no pixels. It is read from the record's sums, whatever the number of entries.
    ///
    /// ```
    /// use kohlenfloh::Table;
    ///
    /// let mut table = Table::with_room(4);
    /// assert_eq!(table.average(), None);
    /// table.add(&[0, 10, 200, 1, 10, 203])?;
    /// assert_eq!(table.average(), Some([1, 10, 202]));
    /// # Ok::<(), kohlenfloh::Refusal>(())
    /// ```
    pub fn average(&self) -> Option<[u8; 3]> {
        let Record { pixels, red, green, blue, .. } = self.record;
        // The sums are those of levels of 0 to 255, so the quotient is one too.
        (pixels > 0).then(|| [red, green, blue].map(|sum| ((2 * sum + pixels) / (2 * pixels)) as u8))
    }

    /// The most entries this table can come to have.
    pub fn room(&self) -> usize {
        self.keys.len().min(self.weights.len()).min(Self::MOST_ENTRIES)
    }

    /// The keys of the used entries, strictly rising.
    pub fn keys(&self) -> &[u32] {
        &self.keys[..self.used()]
    }

    /// The weights of the used entries, in the order of the keys.
    pub fn weights(&self) -> &[u32] {
        &self.weights[..self.used()]
    }

    /// Each used entry as its key and weight, in the order of the keys.
    pub fn entries(&self) -> impl ExactSizeIterator<Item = (u32, u32)> + '_ {
        self.keys().iter().copied().zip(self.weights().iter().copied())
    }
}

/// Used entries, pixels and room; a table can have a million entries, so these are left out.
impl fmt::Debug for Table {
    fn fmt(&self, to: &mut fmt::Formatter<'_>) -> fmt::Result {
        to.debug_struct("Table")
            .field("used", &self.used())
            .field("pixels", &self.pixels())
            .field("room", &self.room())
            .finish()
    }
}
