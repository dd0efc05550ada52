//! The job of the palette from groups, after a run.
use super::rounds::{state, State};
use super::ACCEPTED;
use crate::forms::palette::{packed, plain, Lent};
use crate::forms::twins::pairwise;
use crate::pictures::Picture;
use crate::race::{race, row, timed, Pace};
use crate::table::Table;
use kohlenfloh::calls;

/// What a palette of a table and a state is made from.
fn lent<'a>(table: &'a Table, after: &'a State) -> Lent<'a> {
    let (coordinates, members) = (&after.coordinates, &after.members);
    Lent { record: table.record, keys: &table.keys, weights: &table.weights, coordinates, members }
}

/// Makes a palette by the proved library, in bytes that are lent.
pub fn proved(lent: Lent, palette: &mut [u8]) {
    let Lent { record, keys, weights, coordinates, members } = lent;
    calls::palette_from_groups(record, keys, weights, coordinates, members, palette).expect(ACCEPTED);
}

/// A palette of a table and a state by a form: the seconds, and the palette.
pub fn once(form: fn(Lent, &mut [u8]), table: &Table, after: &State) -> (f64, Vec<u8>) {
    let mut palette = vec![0; after.coordinates.len()];
    let (seconds, ()) = timed(|| form(lent(table, after), &mut palette));
    (seconds, palette)
}

/// The palette of a run at limit 20, without twins: in the higher one B is raised until no entry before it is equal.
pub fn palette(table: &Table, count: usize) -> Vec<u8> {
    let mut palette = once(proved, table, &state(table, count, 20)).1;
    while let Some((_, higher)) = pairwise(&palette) {
        let blue = &mut palette[3 * higher + 2];
        *blue = blue.wrapping_add(1);
    }
    palette
}

/// The palette from the groups of a run at limit 20.
pub fn from_groups(pace: Pace, picture: &Picture, table: &Table, count: usize) {
    let after = state(table, count, 20);
    let times = race(
        pace,
        "palette from groups",
        &mut [&mut || once(proved, table, &after), &mut || once(plain, table, &after), &mut || {
            once(packed, table, &after)
        }],
    );
    let unit = ("colour", table.used() as f64);
    row(&format!("palette from groups, k = {count}"), &picture.name, unit, &times, "packed sums");
}
