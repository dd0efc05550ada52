//! Runs with fixed shades: held against the model, against what is claimed of them, against single rounds of the
//! library and of the model, and the palette of what they leave.
use super::run::{by_single_rounds, damage as damage_run, good_run, good_table, Before};
use super::Subject;
use crate::ask::{PaletteFromGroups, Rule, Run, RunFixed, Table};
use crate::bench::Bench;
use crate::chance::Chance;
use crate::library;
use crate::make::fixed;
use crate::make::table::{of_entries, table};
use crate::model::fixed::{fixed_shades, unlike};
use crate::model::round::Moves;
use crate::model::run::limit_meant;
use crate::model::shade::{colours_of, coordinates_of, shades_of, Point};
use crate::model::table::key_of;
use crate::model::{Model, MOST_SHADES};
use crate::outcome::{Difference, Outcome};
use crate::points;

pub const SUBJECT: Subject = Subject {
    name: "fixed",
    cases: 200_000,
    one_case,
    meets: &[
        "a tie",
        "a tie among the starts",
        "a gap of exactly 4d",
        "a twin of the former shade",
        "an empty group",
        "a mean at a half",
        "a fixed shade with no group",
        "a fixed shade of another level than its group's",
        "a fixed shade that is a table colour",
        "no fixed shade that is a table colour",
        "two equal fixed shades",
        "two equal fixed shades in the table",
        "63 fixed shades and 64 shades",
        "one free shade beside fixed ones",
        "two free shades and more beside fixed ones",
        "colours left just as many as free shades",
        "colours left one fewer than free shades",
        "colours left two fewer than free shades, or more",
        "more shades than used entries, and accepted",
        "two colours, two fixed shades that are neither, four shades",
        "every table colour fixed",
        "fixed shades and an empty table",
        "settled with a fixed shade off its mean",
        "settled",
        "not settled",
        "settled at the limit",
        "eight rounds or more",
        "a limit of 0 and more than 20 rounds",
        "an empty fixed list",
        "fewer than 3 fixed bytes",
        "190 fixed bytes",
        "191 fixed bytes",
        "192 fixed bytes",
        "more than 189 fixed bytes",
        "fixed bytes not a multiple of 3",
        "a count of 0",
        "a count above 64",
        "no free shade in a run",
        "as many fixed shades as shades",
        "members fewer than used",
        "totals fewer than the limit",
        "a limit of 0 with 20 to 99 totals",
        "2 and 10 at once",
        "2 and 4 at once",
        "2 and 5 at once",
        "2 and 6 at once",
        "2 and 7 at once",
        "10 and 4 at once",
        "10 and 5 at once",
        "10 and 6 at once",
        "10 and 7 at once",
        "4 and 5 at once",
        "4 and 6 at once",
        "4 and 7 at once",
        "5 and 6 at once",
        "5 and 7 at once",
        "6 and 7 at once",
        "two causes of 7 at once",
    ],
    refuses: &[2, 4, 5, 6, 7, 10],
};

/// What a good run of a table is asked with these fixed shades, by chance: as many free shades as there are colours
/// for, or fewer. Where there is no colour for one it is not good.
fn beside(chance: &mut Chance, table: Table, fixed: Vec<u8>) -> RunFixed {
    let shades = fixed_shades(&fixed);
    let most = unlike(&table, &shades).count().clamp(1, MOST_SHADES - shades.len());
    let run = good_run(chance, table);
    let free = if chance.one_in(3) { most } else { run.count.min(most) };
    RunFixed { run: Run { count: shades.len() + free, ..run }, fixed }
}

/// A run in which a free shade loses all its colours. It begins on (100,100), between shades on its left and on its
/// right above and below; two heavy colours draw it to the right, away from its own, which the left one takes in the
/// next round, while those on the right take the heavy ones. The fixed shade has no colour.
fn loses_its_colours(chance: &mut Chance) -> RunFixed {
    let (x, y, heavy) = (chance.below(40) as u8, chance.below(90) as u8, chance.between(90, 110) as u32);
    let colours = [
        ([100, 100], 1),
        ([149, 130], heavy),
        ([149, 70], heavy),
        ([5, 100], 1),
        ([52, 100], 1000),
        ([210, 160], 1),
        ([160, 140], 1000),
        ([210, 40], 1),
        ([160, 60], 1000),
    ];
    let table = of_entries(colours.map(|([across, up], weight)| (key_of(&[across + x, up + y, 0]), weight)));
    let limit = chance.one_of(&[0, 2, 3, 20]);
    let run = Run { members: vec![9; table.used()], table, count: 5, limit, totals: vec![7; limit_meant(limit)] };
    RunFixed { run, fixed: vec![100 + x, 100 + y, 200] }
}

/// A run of many colours beside one fixed shade or two: it makes more rounds than most.
fn of_many_colours(chance: &mut Chance) -> RunFixed {
    let all: Vec<u8> = (0..=255).collect();
    let (table, count) = (table(chance, &all, 300), chance.between(1, 2));
    let fixed = chance.bytes(3 * count);
    beside(chance, table, fixed)
}

/// What a good run is asked, by chance; at times with all colours of a small table fixed but some, or every one.
fn good_ask(chance: &mut Chance) -> RunFixed {
    if chance.one_in(40) {
        return loses_its_colours(chance);
    }
    if chance.one_in(20) {
        return of_many_colours(chance);
    }
    let table = good_table(chance);
    let keys = table.keys[..table.used()].to_vec();
    if keys.len() < MOST_SHADES && chance.one_in(12) {
        let left = chance.one_of(&[0, 1, 1, 2, 3]).min(keys.len());
        let mut fixed: Vec<u8> = keys.iter().skip(left).flat_map(|&key| fixed::levels_of(key)).collect();
        if fixed.is_empty() {
            fixed = chance.bytes(3);
        }
        return beside(chance, table, fixed);
    }
    let count = fixed::count(chance);
    let fixed = fixed::fixed(chance, &keys, count);
    beside(chance, table, fixed)
}

/// Damages what is asked in one of its parts.
fn damage(chance: &mut Chance, ask: &mut RunFixed) {
    let shades = ask.fixed.len() / 3;
    match chance.below(8) {
        0 | 1 => fixed::damage(chance, &mut ask.fixed),
        2 => ask.run.count = chance.one_of(&[shades, shades, shades.saturating_sub(1), 1]),
        3 => {
            let left = unlike(&ask.run.table, &fixed_shades(&ask.fixed)).count();
            ask.run.count = shades + left + chance.one_of(&[1, 1, 2, 9]);
        }
        _ => damage_run(chance, &mut ask.run),
    }
}

/// One run.
fn one_case(bench: &mut Bench, chance: &mut Chance) -> Result<(), Difference> {
    let mut ask = good_ask(chance);
    let damages = chance.one_of(&[0, 0, 0, 0, 1, 2, 3]);
    (0..damages).for_each(|_| damage(chance, &mut ask));
    let seen = bench.compare(&ask, library::run_fixed, Model::run_fixed)?;
    if seen.refusal != 0 {
        return Ok(());
    }
    points::of_fixed_run(&ask, &seen)?;
    let fixed = fixed_shades(&ask.fixed);
    let starts = bench.model.starts_beside(&fixed, &ask.run.table, ask.run.count);
    free_starts(&ask.run.table, &fixed, &starts)?;
    let before = by_single_rounds(bench, &ask.run, &starts, fixed.len(), &seen)?;
    by_a_model_round(bench, &ask, &before, &seen)?;
    palette_of(bench, &ask, &seen, &fixed)
}

/// The fixed shades are the first starts, and each other one is a table colour unlike all before it.
fn free_starts(table: &Table, fixed: &[Point], starts: &[Point]) -> Result<(), Difference> {
    Difference::unless_equal("the first starts", &starts[..fixed.len()], fixed)?;
    let colours = colours_of(table);
    for number in fixed.len()..starts.len() {
        let start = &starts[number];
        let in_table = colours.iter().any(|colour| colour.point == *start);
        Difference::unless_equal("a free start in the table", in_table, true)?;
        Difference::unless_equal("a free start like another", starts[..number].contains(start), false)?;
    }
    Ok(())
}

/// The last round by the model, from what stood before it: what the run left.
fn by_a_model_round(bench: &mut Bench, ask: &RunFixed, before: &Before, seen: &Outcome) -> Result<(), Difference> {
    let answer = seen.longs("rounds, settled, distances, final total");
    let moves = Moves { rule: Rule::Lloyd, held: 0..ask.fixed.len() / 3 };
    let formers: Vec<usize> = before.1.iter().map(|&member| member as usize).collect();
    let colours = colours_of(&ask.run.table);
    let made = bench.model.one_round(&moves, &colours, &shades_of(&before.0), Some(&formers));
    let members: Vec<u32> = made.members.iter().map(|&member| member as u32).collect();
    let coordinates = coordinates_of(&made.shades);
    let last = seen.longs("totals")[answer[0] as usize - 1];
    Difference::unless_equal("shades of the last round", &seen.words("shades")[..coordinates.len()], &coordinates[..])?;
    Difference::unless_equal("members of the last round", &seen.words("members")[..members.len()], &members[..])?;
    Difference::unless_equal("total of the last round", last, made.total as u64)?;
    Difference::unless_equal("settled by the last round", answer[1], u64::from(made.moved == 0))
}

/// The palette of what the run left: it is never refused, and each fixed shade has its own bytes.
fn palette_of(bench: &mut Bench, ask: &RunFixed, seen: &Outcome, fixed: &[Point]) -> Result<(), Difference> {
    let coordinates = seen.words("shades")[..3 * ask.run.count].to_vec();
    let (members, palette) = (seen.words("members").to_vec(), vec![7; coordinates.len()]);
    let of_groups =
        PaletteFromGroups { table: ask.run.table.clone(), coordinates, members, fixed: fixed.len(), palette };
    let made = bench.compare(&of_groups, library::palette_from_groups, Model::palette_from_groups)?;
    Difference::unless_equal("refusal of what a run leaves", made.refusal, 0)?;
    Difference::unless_equal("the bytes of fixed shades", &made.bytes("palette")[..ask.fixed.len()], &ask.fixed[..])
}
