//! Bad tables, their sums among what is bad, handed to every call that takes one: each refuses them before it tests
//! anything else, but that a bad strip comes first. And the sums that adding leaves, beside those of the bytes taken.
use super::groups::too_many_fixed;
use super::Subject;
use crate::ask::{Add, PaletteFromGroups, Round, Run, RunFixed, Search, Table};
use crate::bench::Bench;
use crate::chance::Chance;
use crate::library;
use crate::make::colours::{cut_strip, length, levels, strip};
use crate::make::shades;
use crate::make::table::{damage, table};
use crate::model::table::sums_told;
use crate::model::{Model, BAD_STRIP, BAD_TABLE};
use crate::outcome::{Difference, Outcome};

pub const SUBJECT: Subject = Subject {
    name: "tables",
    cases: 100_000,
    one_case,
    meets: &["a bad strip on an untrue record", "FULL with pixels taken", "FULL before a level that is not 0"],
    refuses: &[1, 2, 3],
};

/// One table, bad for every call, and as it was before.
fn one_case(bench: &mut Bench, chance: &mut Chance) -> Result<(), Difference> {
    let levels = levels(chance);
    let most = chance.one_of(&[0, 1, 5, 15, 40]);
    let good = table(chance, &levels, most);
    let mut bad = good.clone();
    damage(chance, &mut bad);
    let pixels = length(chance).min(300);
    let strip = strip(chance, &levels, pixels);
    refused_by_adding(bench, chance, &bad, &strip)?;
    refused_by_rounds(bench, chance, &bad, &levels)?;
    refused_by_a_palette(bench, chance, &bad, &levels)?;
    refused_by_a_run(bench, chance, bad)?;
    sums_of_bytes(bench, good, strip)
}

/// An outcome of a number that is due whatever the model says.
fn refused(number: u32, seen: Outcome) -> Result<(), Difference> {
    Difference::unless_equal("refusal of a bad table", seen.refusal, number)
}

/// A strip added, no pixels, and a strip that is none.
fn refused_by_adding(bench: &mut Bench, chance: &mut Chance, bad: &Table, strip: &[u8]) -> Result<(), Difference> {
    let mut cut = strip.to_vec();
    cut_strip(chance, &mut cut);
    for (strip, number) in [(strip.to_vec(), BAD_TABLE), (Vec::new(), BAD_TABLE), (cut, BAD_STRIP)] {
        let ask = Add { table: bad.clone(), strip };
        refused(number, bench.compare(&ask, library::add, Model::add)?)?;
    }
    Ok(())
}

/// Both single rounds, at times with bad coordinates or members too.
fn refused_by_rounds(bench: &mut Bench, chance: &mut Chance, bad: &Table, levels: &[u8]) -> Result<(), Difference> {
    let count = shades::count(chance);
    let mut coordinates = shades::coordinates(chance, levels, count);
    let mut members = vec![0; bad.keys.len()];
    if chance.one_in(3) {
        shades::damage(chance, &mut coordinates);
        members.pop();
    }
    for search in [Search::Plain, Search::Shortened] {
        let (coordinates, members) = (coordinates.clone(), members.clone());
        let ask = Round { search, table: bad.clone(), coordinates, members };
        refused(BAD_TABLE, bench.compare(&ask, library::round, Model::round)?)?;
    }
    Ok(())
}

/// A palette from groups, at times with bad coordinates, members, fixed shades or room too.
fn refused_by_a_palette(bench: &mut Bench, chance: &mut Chance, bad: &Table, levels: &[u8]) -> Result<(), Difference> {
    let count = shades::count(chance);
    let mut coordinates = shades::coordinates(chance, levels, count);
    let mut members = vec![chance.below(count + 1) as u32; bad.keys.len()];
    let short = chance.below(2);
    let palette = chance.bytes(3 * count - short);
    let fixed = if chance.one_in(3) { too_many_fixed(chance, count) } else { chance.below(count) };
    if chance.one_in(3) {
        shades::damage(chance, &mut coordinates);
        members.pop();
    }
    let ask = PaletteFromGroups { table: bad.clone(), coordinates, members, fixed, palette };
    refused(BAD_TABLE, bench.compare(&ask, library::palette_from_groups, Model::palette_from_groups)?)
}

/// A run of every kind, at times with bad fixed shades or a bad count, limit or room too.
fn refused_by_a_run(bench: &mut Bench, chance: &mut Chance, bad: Table) -> Result<(), Difference> {
    let (count, limit) = (chance.one_of(&[1, 1, 2, 0, 65]), chance.one_of(&[0, 0, 5, 201]));
    let (members, totals) = (vec![7; bad.keys.len()], vec![7; chance.one_of(&[100, 100, 4])]);
    let ask = Run { table: bad, count, limit, members, totals };
    refused(BAD_TABLE, bench.compare(&ask, library::run, Model::run)?)?;
    refused(BAD_TABLE, bench.compare(&ask, library::run_jancey, Model::run_jancey)?)?;
    let bytes = chance.one_of(&[3, 3, 6, 0, 4, 192]);
    let ask = RunFixed { run: ask, fixed: chance.bytes(bytes) };
    refused(BAD_TABLE, bench.compare(&ask, library::run_fixed, Model::run_fixed)?)
}

/// A strip added to a good table: the sums are those before, and the levels of the pixels taken.
fn sums_of_bytes(bench: &mut Bench, good: Table, strip: Vec<u8>) -> Result<(), Difference> {
    let mut due = sums_told(good.record);
    let ask = Add { table: good, strip };
    let seen = bench.compare(&ask, library::add, Model::add)?;
    let taken = 3 * seen.longs("taken")[0] as usize;
    for pixel in ask.strip[..taken].chunks(3) {
        (0..3).for_each(|channel| due[channel] += u128::from(pixel[channel]));
    }
    Difference::unless_equal("sums by the bytes taken", sums_told(Table::left_by(&seen).record), due)
}
