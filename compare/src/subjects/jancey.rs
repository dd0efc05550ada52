//! Runs by Jancey's rule: held against the model, against what is claimed of them, against single rounds, and against
//! the run by Lloyd's rule, with which they share the starts and the first grouping.
use super::run::{damage, good_run, good_table};
use super::Subject;
use crate::ask::{Round, Run, Search, Table};
use crate::bench::Bench;
use crate::chance::Chance;
use crate::library;
use crate::make::table::{of_entries, table};
use crate::model::table::key_of;
use crate::model::{Model, MOST_SHADES};
use crate::outcome::{Difference, Outcome};
use crate::points;

pub const SUBJECT: Subject = Subject {
    name: "jancey",
    cases: 300_000,
    one_case,
    meets: &[
        "a tie",
        "a tie among the starts",
        "a gap of exactly 4d",
        "an empty group",
        "a mean at a half",
        "shade 0 at a half",
        "a step at a half",
        "a step held to 0",
        "a step held to 4080",
        "a step as far as the old value",
        "a step farther than the old value",
        "an old value on the exact mean",
        "a held step nearer where it would not be unheld",
        "one coordinate falls back where another steps",
        "settled",
        "not settled",
        "settled at the limit",
        "eight rounds or more",
        "fewer rounds than by Lloyd's rule",
        "more rounds than by Lloyd's rule",
        "other shades than by Lloyd's rule",
        "a greater total than by Lloyd's rule",
        "a smaller total than by Lloyd's rule",
        "a limit of 0 and more than 20 rounds",
        "a count of 0",
        "a count above 64",
        "members fewer than used",
        "totals fewer than the limit",
        "a limit of 0 with 20 to 99 totals",
    ],
    refuses: &[2, 4, 5, 6, 7],
};

/// A good table, by chance: any, or of levels at one end of the grid, where steps are held.
fn table_by_chance(chance: &mut Chance, end: u8) -> Table {
    if chance.one_in(2) {
        return good_table(chance);
    }
    let levels: Vec<u8> = (0..=chance.between(1, 4) as u8).map(|off| end.abs_diff(off)).collect();
    let most = chance.one_of(&[5, 15, 40, 90]);
    table(chance, &levels, most)
}

/// Three colours in a line: one at an end of the grid, with most of the weight, and two beside it, so that the mean of
/// a group of two lies a sixteenth or two off the end.
fn heavy_at_the_end(chance: &mut Chance, end: u8) -> Table {
    let (line, farther) = (chance.between(1, 7), chance.between(2, 4) as u8);
    let beside = |off: u8| key_of(&[1, 2, 4].map(|bit| if line & bit == 0 { end } else { end.abs_diff(off) }));
    let weight = chance.between(8, 40);
    let weights = [weight, chance.between(1, 2), chance.between(1, 2)].map(|weight| weight as u32);
    of_entries([0, 1, farther].map(beside).into_iter().zip(weights))
}

/// What a good run is asked, by chance; at times for two shades of a heavy colour, or for any number of them.
fn good_ask(chance: &mut Chance) -> Run {
    let end = chance.one_of(&[0, 255]);
    if chance.one_in(6) {
        let table = heavy_at_the_end(chance, end);
        return Run { count: 2, ..good_run(chance, table) };
    }
    let table = table_by_chance(chance, end);
    let mut ask = good_run(chance, table);
    if chance.one_in(4) {
        ask.count = chance.between(1, MOST_SHADES.min(ask.table.used()).max(1));
    }
    ask
}

/// One run.
fn one_case(bench: &mut Bench, chance: &mut Chance) -> Result<(), Difference> {
    let mut ask = good_ask(chance);
    let damages = chance.one_of(&[0, 0, 0, 0, 1, 2]);
    (0..damages).for_each(|_| damage(chance, &mut ask));
    let seen = bench.compare(&ask, library::run_jancey, Model::run_jancey)?;
    let lloyd = bench.once(&ask, library::run)?;
    Difference::unless_equal("refusal, by either rule", seen.refusal, lloyd.refusal)?;
    if seen.refusal != 0 {
        return Ok(());
    }
    points::of_jancey_run(&ask, &seen)?;
    beside_lloyd(bench, &seen, &lloyd)?;
    by_its_last_round(bench, &ask, &seen)
}

/// What a run answers: rounds, settled, distances, final total.
fn answer(outcome: &Outcome) -> &[u64] {
    outcome.longs("rounds, settled, distances, final total")
}

/// The last round by itself: a run of one round fewer leaves what it begins with, and a single round of the library
/// groups from there as the run did.
fn by_its_last_round(bench: &mut Bench, ask: &Run, seen: &Outcome) -> Result<(), Difference> {
    let (fewer, used) = (answer(seen)[0] as usize - 1, ask.table.used());
    if fewer == 0 {
        return Ok(());
    }
    let before = bench.once(&Run { limit: fewer, ..ask.clone() }, library::run_jancey)?;
    let totals = seen.longs("totals");
    Difference::unless_equal("totals, by a run of fewer rounds", &before.longs("totals")[..fewer], &totals[..fewer])?;
    let (coordinates, members) = (before.words("shades")[..3 * ask.count].to_vec(), before.words("members").to_vec());
    let round = Round { search: Search::Shortened, table: ask.table.clone(), coordinates, members };
    let made = bench.once(&round, library::round)?;
    let single = made.longs("total, moved, distances");
    Difference::unless_equal("the last total, by a single round", single[0], totals[fewer])?;
    Difference::unless_equal("distances, by a single round", answer(&before)[2] + single[2], answer(seen)[2])?;
    let [grouped, due] = [&made, seen].map(|outcome| &outcome.words("members")[..used]);
    Difference::unless_equal("members, by a single round", grouped, due)
}

/// The two kinds of run on one ask: the first total is the same. Notes how they end where both settle.
fn beside_lloyd(bench: &mut Bench, seen: &Outcome, lloyd: &Outcome) -> Result<(), Difference> {
    Difference::unless_equal("the first total, by either rule", seen.longs("totals")[0], lloyd.longs("totals")[0])?;
    let (mine, other) = (answer(seen), answer(lloyd));
    if mine[1] == 1 && other[1] == 1 {
        let others = seen.words("shades") != lloyd.words("shades");
        bench.model.meet_if(mine[0] < other[0], "fewer rounds than by Lloyd's rule");
        bench.model.meet_if(mine[0] > other[0], "more rounds than by Lloyd's rule");
        bench.model.meet_if(others, "other shades than by Lloyd's rule");
        bench.model.meet_if(mine[3] > other[3], "a greater total than by Lloyd's rule");
        bench.model.meet_if(mine[3] < other[3], "a smaller total than by Lloyd's rule");
    }
    Ok(())
}
