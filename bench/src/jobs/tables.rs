//! Jobs of the table: a whole picture as one strip, a picture row by row, and the test of a table.
use super::ACCEPTED;
use crate::floors;
use crate::forms::table::{is_table, is_table_packed, Adding};
use crate::forms::{self, merge};
use crate::pictures::Picture;
use crate::race::{race, row, timed, Pace};
use crate::table::Table;
use kohlenfloh::{calls, Record};

/// The room of every table.
const ROOM: usize = 1 << 20;

/// A table's record and used entries, to be compared.
type Contents = (Record, Vec<u32>, Vec<u32>);

/// A table's contents of its own.
fn contents(table: &Table) -> Contents {
    let (record, keys, weights) = table.contents();
    (record, keys.to_vec(), weights.to_vec())
}

/// Fills a table strip by strip, from nothing, by `add`: the seconds, and the contents.
fn filled(table: &mut Table, picture: &Picture, strip: usize, add: fn(&mut Table, &[u8])) -> (f64, Contents) {
    table.record = Record::default();
    let (seconds, ()) = timed(|| picture.raster.chunks(strip).for_each(|strip| add(table, strip)));
    (seconds, contents(table))
}

/// Adds a strip by the proved library.
pub fn proved(table: &mut Table, strip: &[u8]) {
    calls::add_strip(&mut table.record, &mut table.keys, &mut table.weights, strip).expect(ACCEPTED);
}

/// Adds a strip by the usual form in Rust.
fn walked(table: &mut Table, strip: &[u8]) {
    let adding = Adding { test: is_table, merge: merge::walk };
    forms::table::add(adding, &mut table.record, &mut table.keys, &mut table.weights, strip);
}

/// Adds a strip by the other method in Rust.
fn leapt(table: &mut Table, strip: &[u8]) {
    let adding = Adding { test: is_table_packed, merge: merge::leap };
    forms::table::add(adding, &mut table.record, &mut table.keys, &mut table.weights, strip);
}

/// Races the proved library and both Rust forms in filling a table in strips of so many bytes.
fn in_strips(pace: Pace, job: &str, picture: &Picture, strip: usize) {
    let mut lent = [Table::empty(ROOM), Table::empty(ROOM), Table::empty(ROOM)];
    let [first, second, third] = &mut lent;
    let times = race(
        pace,
        job,
        &mut [
            &mut || filled(first, picture, strip, proved),
            &mut || filled(second, picture, strip, walked),
            &mut || filled(third, picture, strip, leapt),
        ],
    );
    row(job, &picture.name, ("pixel", picture.pixels() as f64), &times, "leaps");
}

/// The table of a picture.
pub fn table_of(picture: &Picture) -> Table {
    let mut table = Table::empty(ROOM);
    proved(&mut table, &picture.raster);
    table
}

/// One strip of the whole picture.
pub fn whole(pace: Pace, picture: &Picture) {
    in_strips(pace, "table, one strip", picture, picture.raster.len());
}

/// The same table row by row.
pub fn rows(pace: Pace, picture: &Picture) {
    in_strips(Pace { least: 2, ..pace }, "table, row by row", picture, 3 * picture.width);
}

/// The floors of the table job: a line of their own table.
pub fn floor(pace: Pace, picture: &Picture) -> String {
    let mut lent = [Table::empty(ROOM), Table::empty(ROOM), Table::empty(ROOM)];
    let [first, second, third] = &mut lent;
    let (mut counts, mut bits, mut before) = (vec![1; 1 << 24], vec![1; 1 << 18], vec![1; 1 << 18]);
    let (raster, pixels) = (&picture.raster, picture.pixels());
    let floor = |table: &mut Table, job: &mut dyn FnMut(&mut [u32], &mut [u32]) -> Record| {
        let (seconds, record) = timed(|| job(&mut table.keys, &mut table.weights));
        table.record = record;
        (seconds, contents(table))
    };
    let times = race(
        pace,
        "table's floors",
        &mut [
            &mut || filled(first, picture, raster.len(), proved),
            &mut || floor(second, &mut |keys, weights| floors::counts(&mut counts, keys, weights, raster)),
            &mut || floor(third, &mut |keys, weights| floors::bits(&mut bits, &mut before, keys, weights, raster)),
        ],
    );
    let each: Vec<String> = times.iter().map(|time| format!("{:.2}", time * 1e9 / pixels as f64)).collect();
    format!("| {} | {} |", &picture.name, each.join(" | "))
}

/// The table's test: an empty strip is added.
pub fn test(pace: Pace, picture: &Picture, table: &Table) {
    let mut lent = [table.clone(), table.clone(), table.clone()];
    let [first, second, third] = &mut lent;
    let empty = |table: &mut Table, add: fn(&mut Table, &[u8])| {
        let (seconds, ()) = timed(|| add(table, &[]));
        (seconds, table.record)
    };
    let times = race(
        pace,
        "the table's test",
        &mut [&mut || empty(first, proved), &mut || empty(second, walked), &mut || empty(third, leapt)],
    );
    row("the table's test", &picture.name, ("entry", table.used() as f64), &times, "packed sums");
}

/// One pixel of a new colour, below nearly all others, so that they move up; the plain form in Rust beside it.
pub fn pixel(pace: Pace, picture: &Picture, table: &Table) {
    let used = &table.keys[..table.used()];
    let new = (0..).zip(used).find(|(key, used)| key != *used).map_or(used.len() as u32, |(key, _)| key);
    let strip = [(new >> 16) as u8, (new >> 8) as u8, new as u8];
    let once = |add: fn(&mut Table, &[u8])| {
        let mut lent = table.clone();
        let (seconds, ()) = timed(|| add(&mut lent, &strip));
        (seconds, contents(&lent))
    };
    let plain = |table: &mut Table, strip: &[u8]| {
        forms::table::add_plain(&mut table.record, &mut table.keys, &mut table.weights, strip)
    };
    let times = race(pace, "a new pixel", &mut [&mut || once(proved), &mut || once(plain)]);
    row("a new pixel", &picture.name, ("pixel", 1.0), &times, "");
}
