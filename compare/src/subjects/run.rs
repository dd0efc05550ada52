//! Runs: held against the model, against single rounds from the model's starts, and against the claims on totals,
//! shades and least costs.
use std::mem;

use super::Subject;
use crate::ask::{Round, Run, Search, Table};
use crate::bench::Bench;
use crate::chance::Chance;
use crate::library;
use crate::make::colours::levels;
use crate::make::{shades, table};
use crate::model::run::limit_meant;
use crate::model::shade::{colours_of, coordinates_of, Point};
use crate::model::Model;
use crate::outcome::{Difference, Outcome};
use crate::points;

pub const SUBJECT: Subject = Subject {
    name: "run",
    cases: 300_000,
    one_case,
    meets: &[
        "a tie",
        "a tie among the starts",
        "a gap of exactly 4d",
        "an empty group",
        "a mean at a half",
        "shade 0 at a half",
        "settled",
        "not settled",
        "settled at the limit",
        "eight rounds or more",
        "a limit of 0 and more than 20 rounds",
        "a count of 0",
        "a count above 64",
        "members fewer than used",
        "totals fewer than the limit",
        "a limit of 0 with 20 to 99 totals",
    ],
    refuses: &[2, 4, 5, 6, 7],
};

/// A good table, by chance.
pub fn good_table(chance: &mut Chance) -> Table {
    let levels = levels(chance);
    let most = chance.one_of(&[1, 5, 15, 40, 40, 90, 500]);
    table::table(chance, &levels, most)
}

/// What a good run is asked of a table, by chance; the members and totals hold rubbish.
pub fn good_run(chance: &mut Chance, table: Table) -> Run {
    let count = shades::count(chance).min(table.used()).max(1);
    let limit = chance.one_of(&[0, 0, 1, 2, 3, 5, 20, 200]);
    let spare = chance.one_of(&[0, 1, 7]);
    let members = chance.words(table.used() + spare);
    let totals = (0..limit_meant(limit) + spare).map(|_| chance.long()).collect();
    Run { table, count, limit, members, totals }
}

/// Damages what is asked of a run in one of its parts.
pub fn damage(chance: &mut Chance, ask: &mut Run) {
    match chance.below(7) {
        0 => table::damage(chance, &mut ask.table),
        1 => ask.count = chance.one_of(&[0, 65, usize::MAX, 1 << 32]),
        2 => ask.count = ask.table.used().saturating_add(1),
        3 => ask.limit = chance.one_of(&[201, usize::MAX, 1 << 32]),
        4 => ask.members.truncate(ask.table.used().saturating_sub(1)),
        5 => (ask.limit, ask.totals) = (0, vec![chance.long(); chance.between(20, 100)]),
        _ => ask.totals.truncate(limit_meant(ask.limit).saturating_sub(1)),
    }
}

/// One run.
fn one_case(bench: &mut Bench, chance: &mut Chance) -> Result<(), Difference> {
    let table = good_table(chance);
    let mut ask = good_run(chance, table);
    let damages = chance.one_of(&[0, 0, 0, 0, 1, 2]);
    (0..damages).for_each(|_| damage(chance, &mut ask));
    let seen = bench.compare(&ask, library::run, Model::run)?;
    if seen.refusal != 0 {
        return Ok(());
    }
    points::of_accepted_run(&ask, &seen)?;
    let starts = bench.model.starts(&ask.table, ask.count);
    // "All runs answer as before" (document 02): shade 0 is the mean of the table's colours too.
    let mean = bench.model.mean_of(&colours_of(&ask.table));
    Difference::unless_equal("shade 0, by the table's colours", starts[0], mean)?;
    by_single_rounds(bench, &ask, &starts, 0, &seen).map(drop)
}

/// What stands before a round: the coordinates of its shades, and the members.
pub type Before = (Vec<u32>, Vec<u32>);

/// A run made again by single shortened rounds of the library, from these starts; the first shades, as many as are
/// held, are put back after each round. What stood before the last one.
pub fn by_single_rounds(
    bench: &mut Bench,
    ask: &Run,
    starts: &[Point],
    held: usize,
    seen: &Outcome,
) -> Result<Before, Difference> {
    let answer = seen.longs("rounds, settled, distances, final total");
    let (coordinates, members) = (coordinates_of(starts), vec![0; ask.table.used()]);
    let mut round = Round { search: Search::Shortened, table: ask.table.clone(), coordinates, members };
    let mut before = (Vec::new(), Vec::new());
    let mut distances = 0;
    let mut moved = true;
    for number in 0..answer[0] as usize {
        let made = bench.once(&round, library::round)?;
        let single = made.longs("total, moved, distances");
        Difference::unless_equal("a single round's total", single[0], seen.longs("totals")[number])?;
        distances += single[2];
        let after = [&round.coordinates[..3 * held], &made.words("coordinates")[3 * held..]].concat();
        moved = after != round.coordinates;
        Difference::unless_equal("a single round's moves", held > 0 || (single[1] > 0) == moved, true)?;
        before.0 = mem::replace(&mut round.coordinates, after);
        before.1 = mem::replace(&mut round.members, made.words("members").to_vec());
        let last = number + 1 == answer[0] as usize;
        Difference::unless_equal("a round without a move before the last", !moved && !last, false)?;
    }
    Difference::unless_equal("settled, by single rounds", u64::from(!moved), answer[1])?;
    Difference::unless_equal("distances, by single rounds", distances, answer[2])?;
    Difference::unless_equal(
        "shades, by single rounds",
        &round.coordinates[..],
        &seen.words("shades")[..3 * ask.count],
    )?;
    Difference::unless_equal(
        "members, by single rounds",
        &round.members[..],
        &seen.words("members")[..ask.table.used()],
    )?;
    Ok(before)
}
