//! Single rounds, plain and shortened, on the same input; the two agree in all but the distances.
use super::Subject;
use crate::ask::{Round, Search};
use crate::bench::Bench;
use crate::chance::Chance;
use crate::library;
use crate::make::colours::levels;
use crate::make::{shades, table};
use crate::model::{Model, BAD_MEMBER};
use crate::outcome::{same_values, Difference, Outcome};

pub const SUBJECT: Subject = Subject {
    name: "rounds",
    cases: 400_000,
    one_case,
    meets: &[
        "a tie",
        "a gap of exactly 4d",
        "a twin of the former shade",
        "twin shades",
        "an empty group",
        "a mean at a half",
        "a round on an empty table",
        "fewer than 3 coordinates",
        "more than 192 coordinates",
        "coordinates not a multiple of 3",
        "members fewer than used",
    ],
    refuses: &[2, 4, 7, 8, 9],
};

/// Damages what is asked of a round in one of its parts.
fn damage(chance: &mut Chance, ask: &mut Round) {
    match chance.below(4) {
        0 => table::damage(chance, &mut ask.table),
        1 => shades::damage(chance, &mut ask.coordinates),
        2 => ask.members.truncate(ask.table.used().saturating_sub(1 + chance.below(2))),
        _ if ask.members.is_empty() => {}
        _ => {
            let place = chance.below(ask.members.len());
            ask.members[place] = chance.one_of(&[(ask.coordinates.len() / 3) as u32, u32::MAX, 1 << 31, 255, 64]);
        }
    }
}

/// One round by both searches.
fn one_case(bench: &mut Bench, chance: &mut Chance) -> Result<(), Difference> {
    let levels = levels(chance);
    let most = chance.one_of(&[0, 4, 12, 30, 30, 60, 600]);
    let table = table::table(chance, &levels, most);
    let count = shades::count(chance);
    let coordinates = shades::coordinates(chance, &levels, count);
    let spare = chance.one_of(&[0, 1, 7]);
    let mut members: Vec<u32> = (0..table.used()).map(|_| chance.below(count) as u32).collect();
    members.extend(chance.words(spare));
    let mut ask = Round { search: Search::Plain, table, coordinates, members };
    let damages = chance.one_of(&[0, 0, 0, 1, 1, 2]);
    (0..damages).for_each(|_| damage(chance, &mut ask));
    let plain = bench.compare(&ask, library::round, Model::round)?;
    ask.search = Search::Shortened;
    let short = bench.compare(&ask, library::round, Model::round)?;
    if short.refusal == BAD_MEMBER {
        Ok(())
    } else {
        agree(&plain, &short)
    }
}

/// Total, moved, shades and members of the two searches are the same.
fn agree(plain: &Outcome, short: &Outcome) -> Result<(), Difference> {
    let answer = |outcome: &Outcome| outcome.longs("total, moved, distances")[..2].to_vec();
    Difference::unless_equal("total and moved, plain and shortened", answer(plain), answer(short))?;
    same_values("coordinates, plain and shortened", plain.field("coordinates"), short.field("coordinates"))?;
    same_values("members, plain and shortened", plain.field("members"), short.field("members"))
}
