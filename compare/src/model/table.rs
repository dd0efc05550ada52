//! The table: its sums, its test and adding a strip.
use std::collections::BTreeMap;

use kohlenfloh::Record;

use super::slip::Slip;
use super::{Model, BAD_STRIP, BAD_TABLE, FULL, MOST_ENTRIES, MOST_KEY, MOST_PIXELS};
use crate::ask::{Add, Table};
use crate::outcome::{Outcome, Values};

/// "Room is the shorter of the two lent slices, capped at 1,048,576."
pub fn room(table: &Table) -> u128 {
    let shorter = table.keys.len().min(table.weights.len());
    (shorter as u128).min(MOST_ENTRIES)
}

/// R, G and B of a key, in whole levels.
pub fn levels_of_key(key: u32) -> [u128; 3] {
    [key / 65536, key / 256 % 256, key % 256].map(u128::from)
}

/// "three channel sums in whole levels" (document 02): weight times level over some entries, each a key and a weight.
pub fn sums_of(entries: impl Iterator<Item = (u32, u32)>) -> [u128; 3] {
    let mut sums = [0; 3];
    for (key, weight) in entries {
        let levels = levels_of_key(key);
        (0..3).for_each(|channel| sums[channel] += u128::from(weight) * levels[channel]);
    }
    sums
}

/// The sums that a record tells.
pub fn sums_told(record: Record) -> [u128; 3] {
    [record.red, record.green, record.blue].map(u128::from)
}

/// Whether a record and its entries are a table.
pub fn good_table(table: &Table) -> bool {
    bad_entries(table).is_none() && sums_told(table.record) == sums_of(used_entries(table))
}

/// BAD TABLE but for the sums: "used entries above the room, a used key above 16,777,215 or not above the one before, a
/// used weight of 0, or a pixel total that isn't the sum of the used weights or is above 16,777,216".
fn bad_entries(table: &Table) -> Option<&'static str> {
    let (used, pixels) = (u128::from(table.record.used), u128::from(table.record.pixels));
    if used > room(table) {
        return Some("used above the room");
    }
    let keys = &table.keys[..used as usize];
    let weights = &table.weights[..used as usize];
    if keys.iter().any(|&key| key > MOST_KEY) {
        return Some("a key above 16,777,215");
    }
    if keys.windows(2).any(|pair| pair[1] <= pair[0]) {
        return Some("a key not above the one before");
    }
    if weights.contains(&0) {
        return Some("a weight of 0");
    }
    let sum: u128 = weights.iter().map(|&weight| u128::from(weight)).sum();
    if pixels != sum {
        return Some("a pixel total that is not the sum");
    }
    if pixels > MOST_PIXELS {
        return Some("a pixel total above 16,777,216");
    }
    None
}

/// "Its key is 65536·R + 256·G + B."
pub fn key_of(pixel: &[u8]) -> u32 {
    65536 * u32::from(pixel[0]) + 256 * u32::from(pixel[1]) + u32::from(pixel[2])
}

/// What adding leaves.
fn outcome(refusal: u32, taken: u64, table: Table) -> Outcome {
    let fields = vec![
        ("taken", Values::Longs(vec![taken])),
        ("record", Values::Longs(table.record.to_array().to_vec())),
        ("keys", Values::Words(table.keys)),
        ("weights", Values::Words(table.weights)),
    ];
    Outcome { refusal, fields }
}

impl Model {
    /// The sums of some entries as the model adds them up, by the slip if there is one.
    fn sums(&self, entries: impl Iterator<Item = (u32, u32)>) -> [u128; 3] {
        match self.slip {
            Some(Slip::LeavesWeightsOutOfTheSums) => sums_of(entries.map(|(key, _)| (key, 1))),
            Some(Slip::SwapsGreenAndBlueSums) => {
                let [red, green, blue] = sums_of(entries);
                [red, blue, green]
            }
            _ => sums_of(entries),
        }
    }

    /// BAD TABLE: the entries' and the total's faults, and "A handed-in record whose sums disagree with its entries"
    /// (document 02). Notes in which way they do.
    pub fn bad_table(&mut self, table: &Table) -> Option<&'static str> {
        if let Some(why) = bad_entries(table) {
            return Some(why);
        }
        let (mut told, due) = (sums_told(table.record), self.sums(used_entries(table)));
        if self.slips(Slip::TakesAnyRedSum) {
            told[0] = due[0];
        }
        if told == due {
            return None;
        }
        let ways = ways_untrue(told, due);
        ways.into_iter().for_each(|(holds, way)| self.meet_if(holds, way));
        self.meet_if(table.record.used == 0, "a sum and no used entry");
        Some("a channel sum that is not that of the entries")
    }

    /// "Adding: 1, 2, 3." "a refused add hands the record back as it came in; FULL answers the pixels taken, and the
    /// record and table are those of these pixels".
    pub fn add(&mut self, ask: &Add) -> Outcome {
        if !ask.strip.len().is_multiple_of(3) {
            self.meet("a strip not a multiple of 3");
            let untrue = bad_entries(&ask.table).is_none() && !good_table(&ask.table);
            self.meet_if(untrue, "a bad strip on an untrue record");
            return outcome(BAD_STRIP, 0, ask.table.clone());
        }
        if let Some(why) = self.bad_table(&ask.table) {
            self.meet(why);
            return outcome(BAD_TABLE, 0, ask.table.clone());
        }
        let mut entries: BTreeMap<u32, u32> = used_entries(&ask.table).collect();
        let mut pixels = u128::from(ask.table.record.pixels);
        let mut taken = 0;
        let mut refusal = 0;
        // "Adding a strip takes pixels from first to last."
        for pixel in ask.strip.chunks(3) {
            let known = entries.contains_key(&key_of(pixel));
            // FULL: "the next pixel meets a total of 16,777,216, or is a new colour with no room"
            let many = pixels == MOST_PIXELS;
            let no_room = !known && entries.len() as u128 == room(&ask.table);
            if many || no_room {
                refusal = FULL;
                self.meet(if many { "FULL by pixels" } else { "FULL by room" });
                break;
            }
            // "A pixel raises its colour's weight by one or enters with weight 1 at its sorted place."
            *entries.entry(key_of(pixel)).or_insert(0) += 1;
            pixels += 1;
            taken += 1;
        }
        self.meet_if(refusal == FULL && taken == 0, "FULL with nothing taken");
        self.meet_if(refusal == FULL && taken > 0, "FULL with pixels taken");
        self.meet_if(refusal == 0 && ask.strip.is_empty(), "an empty strip");
        let left = &ask.strip[3 * taken as usize..];
        self.meet_if(refusal == FULL && left.iter().any(|&level| level > 0), "FULL before a level that is not 0");
        let sums = self.sums_left(ask.table.record, &entries, left);
        let record = Record::new(entries.len() as u64, pixels as u64, sums.map(|sum| sum as u64));
        outcome(refusal, taken, with_entries(&ask.table, &entries, record))
    }

    /// The sums that an add leaves, "true after every accepted add and after BAD STRIP or FULL on a record that was
    /// true before" (document 02): those of the entries then, by the slip if there is one.
    fn sums_left(&self, before: Record, entries: &BTreeMap<u32, u32>, not_taken: &[u8]) -> [u128; 3] {
        let sums = self.sums(entries.iter().map(|(&key, &weight)| (key, weight)));
        match self.slip {
            Some(Slip::KeepsTheSumsOfTheRecordBefore) => sums_told(before),
            Some(Slip::SumsPixelsThatWereNotTaken) => {
                let more = sums_of(not_taken.chunks(3).map(|pixel| (key_of(pixel), 1)));
                [0, 1, 2].map(|channel| sums[channel] + more[channel])
            }
            _ => sums,
        }
    }
}

/// The ways in which sums that are told differ from those that are due, by the names of the edge cases.
fn ways_untrue(told: [u128; 3], due: [u128; 3]) -> [(bool, &'static str); 9] {
    let off = [0, 1, 2].map(|channel| told[channel] as i128 - due[channel] as i128);
    let alone = |channel: usize, step: i128| {
        (0..3).all(|other| if other == channel { off[other].abs() == step } else { off[other] == 0 })
    };
    let by = |step: i128| (0..3).any(|channel| alone(channel, step));
    let packed = |factors: [i128; 3]| (0..3).map(|channel| factors[channel] * off[channel]).sum::<i128>();
    let (one_number, other_number) = (packed([65536, 256, 1]), packed([1, 0, 16_777_216]));
    [
        (alone(0, 1), "a red sum off by one"),
        (alone(1, 1), "a green sum off by one"),
        (alone(2, 1), "a blue sum off by one"),
        (packed([1, 1, 1]) == 0 && off.iter().all(|one| one.abs() <= 1), "two sums off by one that cancel"),
        (told == [due[0], due[2], due[1]], "green and blue sums swapped"),
        (told.contains(&u64::MAX.into()), "a sum of 2^64 - 1"),
        (by(1 << 32) || by(1 << 48), "a sum off by 2^32 or 2^48"),
        (one_number == 0, "sums off that agree in 65536 R + 256 G + B"),
        (other_number == 0, "sums off that agree in R + 16777216 B"),
    ]
}

/// The used entries of a good table: key and weight.
pub fn used_entries(table: &Table) -> impl Iterator<Item = (u32, u32)> + '_ {
    let both = table.keys.iter().copied().zip(table.weights.iter().copied());
    both.take(table.used())
}

/// The table with these entries and this record. "Places past the used entries keep their values."
fn with_entries(before: &Table, entries: &BTreeMap<u32, u32>, record: Record) -> Table {
    let mut table = before.clone();
    table.record = record;
    for (place, (&key, &weight)) in entries.iter().enumerate() {
        table.keys[place] = key;
        table.weights[place] = weight;
    }
    table
}
