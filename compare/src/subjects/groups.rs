//! Palettes from groups: of members by chance, and of what runs leave.
use super::Subject;
use crate::ask::{Palette, PaletteFromGroups, Run};
use crate::bench::Bench;
use crate::chance::Chance;
use crate::library;
use crate::make::colours::levels;
use crate::make::{shades, table};
use crate::model::run::limit_meant;
use crate::model::Model;
use crate::outcome::Difference;

pub const SUBJECT: Subject = Subject {
    name: "groups",
    cases: 500_000,
    one_case,
    meets: &[
        "a group's mean at a half",
        "a group's mean just below a half",
        "a group's mean just above a half",
        "a mean that is a level higher where it is rounded twice",
        "a coordinate half-way between levels",
        "a shade with no group",
        "one group of all entries",
        "a group of 16,777,216 pixels",
        "a palette from an empty table",
        "one shade",
        "64 shades",
        "members just as many as used",
        "members one fewer than used",
        "members fewer than used",
        "a member of 2^32 - 1 past the used entries",
        "a member at the count",
        "palette bytes just 3 a shade",
        "palette bytes past the last shade's",
        "palette bytes fewer than 3 a shade",
        "a palette one byte short",
        "two causes of 7 at once",
        "a bad centre of a shade with a group",
        "fewer than 3 coordinates",
        "more than 192 coordinates",
        "coordinates not a multiple of 3",
        "no fixed shade",
        "one free shade beside fixed ones",
        "two free shades and more beside fixed ones",
        "63 fixed shades and 64 shades",
        "a fixed shade with no group",
        "a fixed shade of another level than its group's",
        "as many fixed shades as shades",
        "more fixed shades than shades",
        "2^32 fixed shades and more",
        "2 and no free shade at once",
        "no free shade and 8 at once",
        "no free shade and 7 at once",
        "no free shade and 9 at once",
        "two causes of 4 at once",
        "2 and 4 at once",
        "2 and 8 at once",
        "2 and 7 at once",
        "2 and 9 at once",
        "4 and 8 at once",
        "4 and 7 at once",
        "4 and 9 at once",
        "8 and 7 at once",
        "8 and 9 at once",
        "7 and 9 at once",
        "a run's level that is one lower than by its shade",
    ],
    refuses: &[2, 4, 7, 8, 9],
};

/// Members for so many used entries, in one group, in two, or in any; and some past them that mean nothing.
fn members(chance: &mut Chance, used: usize, count: usize) -> Vec<u32> {
    let groups = chance.one_of(&[1, 2, count, count]).min(count);
    let lowest = chance.below(count - groups + 1);
    let mut members: Vec<u32> = (0..used).map(|_| (lowest + chance.below(groups)) as u32).collect();
    let spare = chance.one_of(&[0, 0, 1, 7]);
    members.extend((0..spare).map(|_| chance.one_of(&[u32::MAX, 1 << 31, count as u32, 0])));
    members
}

/// A number of fixed shades for so many shades: none, one, or any that leaves a free one.
fn fixed_of(chance: &mut Chance, count: usize) -> usize {
    let any = chance.below(count);
    chance.one_of(&[0, 0, 1, any, count - 1]).min(count - 1)
}

/// A number of fixed shades that leaves none of so many free.
pub fn too_many_fixed(chance: &mut Chance, count: usize) -> usize {
    let low = chance.below(count + 1);
    chance.one_of(&[count, count, count + 1, 64, 65, 255, (1 << 32) + low, (1 << 63) + low, usize::MAX]).max(count)
}

/// What is asked of a good palette, by chance.
fn good_palette(chance: &mut Chance) -> PaletteFromGroups {
    let levels = levels(chance);
    let most = chance.one_of(&[0, 2, 5, 15, 40, 40, 90, 500]);
    let table = table::table(chance, &levels, most);
    let count = shades::count(chance);
    let coordinates = shades::coordinates(chance, &levels, count);
    let members = members(chance, table.used(), count);
    let (fixed, spare) = (fixed_of(chance, count), chance.one_of(&[0, 0, 1, 2, 3, 40]));
    PaletteFromGroups { table, coordinates, members, fixed, palette: chance.bytes(3 * count + spare) }
}

/// Damages what is asked in one of its parts.
fn damage(chance: &mut Chance, ask: &mut PaletteFromGroups) {
    let bytes = ask.coordinates.len();
    match chance.below(7) {
        0 => table::damage(chance, &mut ask.table),
        1 => shades::damage(chance, &mut ask.coordinates),
        6 => ask.fixed = too_many_fixed(chance, bytes / 3),
        2 => ask.members.truncate(ask.table.used().saturating_sub(chance.between(1, 2))),
        3 => ask.palette.truncate(chance.one_of(&[0, 2, bytes.saturating_sub(1), bytes.saturating_sub(3)])),
        _ if ask.members.is_empty() => {}
        _ => {
            let place = chance.below(ask.members.len());
            ask.members[place] = chance.one_of(&[(bytes / 3) as u32, (bytes / 3) as u32, u32::MAX, 1 << 31, 255, 64]);
        }
    }
}

/// One palette of members by chance, at times damaged; or, once in four times, that of a run.
fn one_case(bench: &mut Bench, chance: &mut Chance) -> Result<(), Difference> {
    if chance.one_in(4) {
        return after_a_run(bench, chance);
    }
    let mut ask = good_palette(chance);
    let damages = chance.one_of(&[0, 0, 0, 1, 1, 2, 2, 3]);
    (0..damages).for_each(|_| damage(chance, &mut ask));
    bench.compare(&ask, library::palette_from_groups, Model::palette_from_groups).map(drop)
}

/// What is asked of a palette from the groups that a run leaves, in these bytes; the run is one that is accepted.
pub fn left_by(bench: &mut Bench, run: Run, palette: Vec<u8>) -> Result<PaletteFromGroups, Difference> {
    let ran = bench.once(&run, library::run)?;
    Difference::unless_equal("refusal of a run", ran.refusal, 0)?;
    let (coordinates, members) = (ran.words("shades")[..3 * run.count].to_vec(), ran.words("members").to_vec());
    Ok(PaletteFromGroups { table: run.table, coordinates, members, fixed: 0, palette })
}

/// The palette of what a run leaves, which is never refused. Beside the palette of the run's shades, which are rounded
/// already, each level is the same or one lower.
fn after_a_run(bench: &mut Bench, chance: &mut Chance) -> Result<(), Difference> {
    let PaletteFromGroups { table, coordinates, palette, .. } = good_palette(chance);
    let count = (coordinates.len() / 3).min(table.used());
    if count == 0 {
        return Ok(());
    }
    let (limit, spare) = (chance.one_of(&[0, 0, 1, 2, 3, 20]), chance.one_of(&[0, 1, 7]));
    let (members, totals) = (chance.words(table.used() + spare), vec![7; limit_meant(limit)]);
    let ask = left_by(bench, Run { table, count, limit, members, totals }, palette)?;
    let by_shades = Palette { coordinates: ask.coordinates.clone(), palette: ask.palette.clone() };
    let seen = bench.compare(&ask, library::palette_from_groups, Model::palette_from_groups)?;
    Difference::unless_equal("refusal of what a run leaves", seen.refusal, 0)?;
    let twice = bench.once(&by_shades, library::palette)?;
    for (&once, &twice) in seen.bytes("palette").iter().zip(twice.bytes("palette")) {
        bench.model.meet_if(once < twice, "a run's level that is one lower than by its shade");
        let near = twice.checked_sub(once).is_some_and(|step| step <= 1);
        Difference::unless_equal("a level by its shade that is the same or one higher", near, true)?;
    }
    Ok(())
}
