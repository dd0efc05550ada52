//! Tables, good and damaged.
use std::collections::BTreeSet;

use kohlenfloh::Record;

use super::colours::colour;
use crate::ask::Table;
use crate::chance::Chance;
use crate::model::table::{good_table, key_of, sums_of};
use crate::model::{MOST_ENTRIES, MOST_PIXELS};

const MOST: u64 = MOST_PIXELS as u64;

/// A good table of at most so many entries, in slices with some room to spare, filled with rubbish.
pub fn table(chance: &mut Chance, levels: &[u8], most: usize) -> Table {
    let draws = chance.between(0, most);
    let drawn: BTreeSet<u32> = (0..draws).map(|_| key_of(&colour(chance, levels))).collect();
    let mut keys: Vec<u32> = drawn.into_iter().collect();
    let mut weights = weights(chance, keys.len());
    let record = record_of(&keys, &weights);
    for slice in [&mut keys, &mut weights] {
        let spare = chance.one_of(&[0, 0, 1, 2, 5, 40]);
        slice.extend(chance.words(spare));
    }
    Table { record, keys, weights }
}

/// The table of these entries, each a key and a weight, in any order.
pub fn of_entries(entries: impl IntoIterator<Item = (u32, u32)>) -> Table {
    let mut entries: Vec<(u32, u32)> = entries.into_iter().collect();
    entries.sort_unstable();
    let (keys, weights): (Vec<u32>, Vec<u32>) = entries.into_iter().unzip();
    Table { record: record_of(&keys, &weights), keys, weights }
}

/// The record of some entries: every place is used, and what it tells is true.
pub fn record_of(keys: &[u32], weights: &[u32]) -> Record {
    let sums = sums_of(keys.iter().copied().zip(weights.iter().copied()));
    Record::new(keys.len() as u64, sum(weights), sums.map(|sum| sum as u64))
}

/// The sum of some weights.
fn sum(weights: &[u32]) -> u64 {
    weights.iter().map(|&weight| u64::from(weight)).sum()
}

/// Weights of a table: ones, few, many, or so many that little is left to 16,777,216 pixels.
fn weights(chance: &mut Chance, count: usize) -> Vec<u32> {
    let most = chance.one_of(&[1, 2, 4, 300]);
    let mut weights: Vec<u32> = (0..count).map(|_| chance.between(1, most) as u32).collect();
    if count > 0 && chance.one_in(12) {
        let left = chance.one_of(&[0, 1, 2, 9]);
        let place = chance.below(count);
        weights[place] += (MOST - left - sum(&weights)) as u32;
    }
    weights
}

/// Damages a good table in one way of those that document 01 lists, or in its sums; a bad one stays as it is. Where the
/// entries or the total are damaged, the sums are at times those of the damaged entries.
pub fn damage(chance: &mut Chance, table: &mut Table) {
    if !good_table(table) {
        return;
    }
    if chance.one_in(2) {
        let (way, one_more) = (chance.below(WAYS), 2 * chance.below(3));
        table.record = untrue(table.record, way).or(untrue(table.record, one_more)).expect("a sum can be one more");
        return;
    }
    damage_entries(chance, table);
    let used = table.record.used as usize;
    if chance.one_in(2) && used <= table.keys.len().min(table.weights.len()) {
        let Record { red, green, blue, .. } = record_of(&table.keys[..used], &table.weights[..used]);
        (table.record.red, table.record.green, table.record.blue) = (red, green, blue);
    }
}

/// How many ways there are to make the sums of a record untrue.
pub const WAYS: usize = 18;

/// A true record with its sums made untrue in one way, or none where this way leads below 0 or leaves them true.
pub fn untrue(record: Record, way: usize) -> Option<Record> {
    let [red, green, blue] = [record.red, record.green, record.blue].map(i128::from);
    let sums = match way {
        // one off by one
        0 => [red + 1, green, blue],
        1 => [red - 1, green, blue],
        2 => [red, green + 1, blue],
        3 => [red, green - 1, blue],
        4 => [red, green, blue + 1],
        5 => [red, green, blue - 1],
        // two off by one that cancel
        6 => [red + 1, green - 1, blue],
        7 => [red, green + 1, blue - 1],
        8 => [red - 1, green, blue + 1],
        // green and blue swapped
        9 => [red, blue, green],
        // as great as can be
        10 => [i128::from(u64::MAX), green, blue],
        11 => [red, green, i128::from(u64::MAX)],
        // off by what 32 bits do not show, and by what 64 bits do not show of 65536 R
        12 => [red, green + (1 << 32), blue],
        13 => [red + (1 << 48), green, blue],
        // off with 65536 R + 256 G + B as it is
        14 => [red - 1, green + 256, blue],
        15 => [red, green - 1, blue + 256],
        16 => [red + 1, green, blue - 65536],
        // off with R + 16777216 B as it is
        _ => [red + (1 << 24), green, blue - 1],
    };
    let [Ok(red), Ok(green), Ok(blue)] = sums.map(u64::try_from) else { return None };
    Some(Record::new(record.used, record.pixels, [red, green, blue])).filter(|untrue| *untrue != record)
}

/// Damages the entries of a good table, or what its record tells of their number and pixels.
fn damage_entries(chance: &mut Chance, table: &mut Table) {
    let room = table.keys.len().min(table.weights.len());
    if table.used() == 0 || chance.one_in(4) {
        match chance.below(4) {
            0 => table.record.used = room as u64 + 1,
            1 => table.record.used = chance.one_of(&[u64::MAX, 1 << 32, MOST_ENTRIES as u64 + 1]),
            2 => table.record.pixels = chance.one_of(&[table.record.pixels + 1, table.record.pixels.wrapping_sub(1)]),
            _ => table.record.pixels = chance.one_of(&[u64::MAX, 1 << 32, MOST + 1]),
        }
        return;
    }
    let place = chance.below(table.used());
    match chance.below(4) {
        0 => damage_key(chance, table, place),
        1 => lose_weight(table, place),
        2 => gain_weight(chance, table, place),
        _ => table.record.used -= 1,
    }
}

/// A key that does not rise or is too large.
fn damage_key(chance: &mut Chance, table: &mut Table, place: usize) {
    if place > 0 && chance.one_in(2) {
        table.keys[place] = table.keys[place - 1] - chance.below(2).min(table.keys[place - 1] as usize) as u32;
    } else {
        table.keys[place] = chance.one_of(&[16_777_216, u32::MAX, table.keys[place] + (1 << 24)]);
    }
}

/// A weight of 0 and a pixel total to match.
fn lose_weight(table: &mut Table, place: usize) {
    table.record.pixels -= u64::from(table.weights[place]);
    table.weights[place] = 0;
}

/// A weight so large that the pixel total, made to match, is above 16,777,216; at times the total does not match.
fn gain_weight(chance: &mut Chance, table: &mut Table, place: usize) {
    let least = MOST - table.record.pixels + u64::from(table.weights[place]) + 1;
    table.weights[place] = chance.one_of(&[least as u32, u32::MAX]);
    if !chance.one_in(4) {
        table.record.pixels = sum(&table.weights[..table.used()]);
    }
}
