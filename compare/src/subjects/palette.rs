//! Palettes from shades.
use super::Subject;
use crate::ask::Palette;
use crate::bench::Bench;
use crate::chance::Chance;
use crate::library;
use crate::make::colours::levels;
use crate::make::shades;
use crate::model::Model;
use crate::outcome::Difference;

pub const SUBJECT: Subject = Subject {
    name: "palette",
    cases: 1_000_000,
    one_case,
    meets: &[
        "a coordinate half-way between levels",
        "fewer than 3 coordinates",
        "more than 192 coordinates",
        "coordinates not a multiple of 3",
    ],
    refuses: &[4, 7, 8],
};

/// One palette.
fn one_case(bench: &mut Bench, chance: &mut Chance) -> Result<(), Difference> {
    let levels = levels(chance);
    let count = shades::count(chance);
    let mut coordinates = shades::coordinates(chance, &levels, count);
    let spare = chance.one_of(&[0, 0, 1, 2, 3, 40]);
    let mut palette = chance.bytes(coordinates.len() + spare);
    if chance.one_in(3) {
        shades::damage(chance, &mut coordinates);
    }
    if chance.one_in(4) {
        let short = chance.one_of(&[0, 2, coordinates.len().saturating_sub(1)]);
        palette.truncate(short);
    }
    bench.compare(&Palette { coordinates, palette }, library::palette, Model::palette).map(drop)
}
