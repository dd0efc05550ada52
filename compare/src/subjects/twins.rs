//! Twins of every kind in a palette, alone and beside every other refusal of mapping; and those that runs leave.
use super::groups::left_by;
use super::Subject;
use crate::ask::{Map, Run};
use crate::bench::Bench;
use crate::chance::Chance;
use crate::library;
use crate::make::colours::{cut_strip, levels, strip};
use crate::make::palettes::{distinct, each_once, make_twins};
use crate::make::table;
use crate::model::run::USUAL_LIMIT;
use crate::model::{Model, MOST_PIXELS, TWIN_SHADE};
use crate::outcome::{Difference, Outcome};

pub const SUBJECT: Subject = Subject {
    name: "twins",
    cases: 20_000,
    one_case,
    meets: &[
        "two equal entries",
        "twins beside each other",
        "twins with others between them",
        "twins at 0 and 63",
        "twins at the last entry alone",
        "twins of two colours",
        "twins of a smaller lower number behind others",
        "three equal entries",
        "all entries equal",
        "twins and no pixels",
        "64 entries, no two of them equal",
        "two entries that differ in one level by one",
        "1 and 18 at once",
        "10 and 18 at once",
        "18 and 11 at once",
        "18 and 7 at once",
        "twins that a run leaves",
        "a run that leaves no twins",
    ],
    refuses: &[1, 7, 10, 11, 18],
};

/// One palette, mostly with twins, at times with more that is refused; or, once in three times, that of a run.
fn one_case(bench: &mut Bench, chance: &mut Chance) -> Result<(), Difference> {
    if chance.one_in(3) {
        return after_a_run(bench, chance);
    }
    let levels = levels(chance);
    let count = chance.one_of(&[1, 2, 2, 3, 4, 5, 9, 17, 33, 63, 64, 64]);
    let mut entries = distinct(chance, &levels, count);
    if !chance.one_in(5) {
        make_twins(chance, &mut entries);
    }
    let pixels = chance.one_of(&[0, 0, 1, 2, 7, 30]);
    let (strip, first) = (strip(chance, &levels, pixels), chance.below(3));
    let mut ask = Map { strip, palette: entries.concat(), index: chance.bytes(pixels + 2), first };
    // Seldom, as so many pixels take a while.
    if chance.one_in(100) {
        ask.strip.resize(3 * (MOST_PIXELS as usize + 1), 7);
    } else {
        let damages = chance.one_of(&[0, 0, 0, 1, 1, 2, 3]);
        (0..damages).for_each(|_| damage(chance, &mut ask));
    }
    let seen = bench.compare(&ask, library::map, Model::map)?;
    pair_told(&ask, &seen)
}

/// Damages what is asked in one of its parts.
fn damage(chance: &mut Chance, ask: &mut Map) {
    let end = ask.index.len();
    match chance.below(3) {
        0 => cut_strip(chance, &mut ask.strip),
        1 => {
            let length = chance.one_of(&[ask.palette.len() + 1, ask.palette.len() + 2, 193, 194, 195]);
            ask.palette.resize_with(length, || chance.long() as u8);
        }
        _ => ask.first = chance.one_of(&[end + 1, end + 2, 1 << 32, usize::MAX]),
    }
}

/// What is promised of the pair, held against the palette alone: after TWIN SHADE two equal entries, and no two that
/// are equal before the higher one; zeros in every other answer.
fn pair_told(ask: &Map, seen: &Outcome) -> Result<(), Difference> {
    let answer = seen.longs("error, R, G, B, mean or none, lower, higher");
    let (lower, higher) = (answer[5] as usize, answer[6] as usize);
    if seen.refusal != TWIN_SHADE {
        return Difference::unless_equal("the pair of another answer", (lower, higher), (0, 0));
    }
    let entry = |number: usize| ask.palette.chunks(3).nth(number);
    Difference::unless_equal("the lower number is the lower", lower < higher && entry(higher).is_some(), true)?;
    Difference::unless_equal("the entry that equals the lower one", entry(higher), entry(lower))?;
    let before = &ask.palette[..3 * higher];
    Difference::unless_equal("entries before the higher one that are there once", &each_once(before)[..], before)
}

/// The palette of a run of close colours, at times with twins, to which they are mapped. Twins are most frequent where
/// there are nearly as many shades as colours.
fn after_a_run(bench: &mut Bench, chance: &mut Chance) -> Result<(), Difference> {
    let base = chance.below(253) as u8;
    let table = table::table(chance, &[base, base + 1, base + 2], 20);
    let count = table.used().saturating_sub(chance.between(1, 4));
    if count == 0 {
        return Ok(());
    }
    let members = vec![0; table.used()];
    let colours: Vec<u8> = table.keys[..table.used()].iter().flat_map(|key| key.to_be_bytes()[1..].to_vec()).collect();
    let run = Run { table, count, limit: 0, members, totals: vec![7; USUAL_LIMIT] };
    let made = left_by(bench, run, vec![0; 3 * count])?;
    let palette = bench.once(&made, library::palette_from_groups)?.bytes("palette").to_vec();
    let ask = Map { index: chance.bytes(colours.len() / 3), strip: colours, palette, first: 0 };
    let seen = bench.compare(&ask, library::map, Model::map)?;
    bench.model.meet(if seen.refusal == 0 { "a run that leaves no twins" } else { "twins that a run leaves" });
    pair_told(&ask, &seen)
}
