//! The test behind FEW COLOURS with the most fixed shades, on a full table and on small ones.
//!
//! No call makes it alone: BAD TABLE comes first, which goes through all entries. So two calls are made in turn that
//! are refused right before it and right behind it, by BAD COUNT and by BAD LIMIT; what the second takes more is the
//! test. Of many such pairs the middle times and the middle difference are told: the least times of two calls that take
//! a millisecond differ by more than the test takes.
//!
//! Each fixed shade is one colour of a table at most, so that a table of as many entries as shades has colours enough
//! whichever they are; one of an entry fewer has to be looked through.
use crate::race::{figure, timed, Pace};
use crate::table::Table;
use kohlenfloh::{calls, Record, Refusal, RunOptions, Shades};
use std::time::Instant;

/// The heading of the table of this test.
pub const HEADING: &str = "| FEW COLOURS, 63 fixed shades | Entries | Refused by 4: middle µs | by 6: middle µs \
| Middle difference of pairs: µs | Pairs |\n|---|---|---|---|---|---|";

/// The most pairs of calls for a row.
const MOST_PAIRS: usize = 100_000;

/// A table of so many colours, as far apart as can be, each once.
fn even(entries: u32) -> Table {
    let apart = (1 << 24) / entries;
    let keys: Vec<u32> = (0..entries).map(|number| apart * number + apart / 2).collect();
    let sum = |place: u32| keys.iter().map(|key| u64::from(key >> place & 255)).sum();
    let record = Record::new(keys.len() as u64, keys.len() as u64, [16, 8, 0].map(sum));
    Table { record, weights: vec![1; keys.len()], keys }
}

/// As many shades as can be fixed: colours of a table, the last one not among them, or right beside these.
fn stock(table: &Table, beside: u32) -> Vec<u8> {
    let numbers = 1..=RunOptions::MOST_FIXED;
    let keys = numbers.map(|number| table.keys[number * (table.used() - 1) / Shades::MOST] + beside);
    keys.flat_map(|key| key.to_be_bytes()[1..].to_vec()).collect()
}

/// The seconds of a call that is refused, where so many shades and rounds are asked for.
fn refused(table: &Table, fixed: &[u8], [count, limit]: [usize; 2], refusal: Refusal) -> f64 {
    let (record, keys, weights) = (table.record, &table.keys[..], &table.weights[..]);
    let (seconds, ran) = timed(|| calls::run_fixed(record, keys, weights, fixed, count, limit, &mut [], &mut []));
    assert_eq!(ran, Err(refusal));
    seconds
}

/// Prints a row: the test with these fixed shades.
fn row(pace: Pace, name: &str, table: &Table, fixed: &[u8]) {
    let before = || refused(table, fixed, [Shades::MOST + 1, 0], Refusal::BadCount);
    let behind = || refused(table, fixed, [Shades::MOST, RunOptions::MOST_ROUNDS + 1], Refusal::BadLimit);
    let (mut pairs, start) = (Vec::new(), Instant::now());
    let goes_on = |pairs: usize| pairs < MOST_PAIRS && start.elapsed().as_secs_f64() < 4.0 * pace.seconds;
    while pairs.len() < 2 * pace.least || goes_on(pairs.len()) {
        // Each comes first in half of the pairs.
        pairs.push([before(), behind()]);
        let (behind, before) = (behind(), before());
        pairs.push([before, behind]);
    }
    let middle = |of: &dyn Fn(&[f64; 2]) -> f64| {
        let mut all: Vec<f64> = pairs.iter().map(of).collect();
        all.sort_by(f64::total_cmp);
        figure(1e6 * all[all.len() / 2])
    };
    let told = [middle(&|pair| pair[0]), middle(&|pair| pair[1]), middle(&|pair| pair[1] - pair[0])];
    println!("| {name} | {} | {} | {} |", table.used(), told.join(" | "), pairs.len());
}

/// Prints the rows: fixed shades that are colours of the table, and that are none.
pub fn all(pace: Pace) {
    for entries in [63, 64, 1 << 20] {
        let table = even(entries);
        row(pace, "all of them colours of the table", &table, &stock(&table, 0));
        row(pace, "none of them", &table, &stock(&table, 1));
    }
}
