//! Mapping strips into stretches of an index picture.
use super::Subject;
use crate::ask::Map;
use crate::bench::Bench;
use crate::chance::Chance;
use crate::library;
use crate::make::colours::{cut_strip, length, levels, strip};
use crate::make::palettes;
use crate::model::Model;
use crate::outcome::Difference;

pub const SUBJECT: Subject = Subject {
    name: "map",
    cases: 400_000,
    one_case,
    meets: &[
        "a tie",
        "no pixels",
        "a stretch up to the end",
        "a stretch past the index picture",
        "a stretch past all numbers",
        "fewer than 3 palette bytes",
        "more than 192 palette bytes",
        "palette bytes not a multiple of 3",
        "two equal entries",
        "64 entries, no two of them equal",
        "two entries that differ in one level by one",
        "1 and 10 at once",
        "1 and 18 at once",
        "1 and 7 at once",
        "10 and 18 at once",
        "10 and 7 at once",
        "18 and 7 at once",
    ],
    refuses: &[1, 7, 10, 18],
};

/// One strip mapped.
fn one_case(bench: &mut Bench, chance: &mut Chance) -> Result<(), Difference> {
    let levels = levels(chance);
    let pixels = length(chance);
    let mut strip_bytes = strip(chance, &levels, pixels);
    let mut palette = palettes::palette(chance, &levels);
    let before = chance.one_of(&[0, 0, 1, 5, 300]);
    let behind = chance.one_of(&[0, 0, 1, 9]);
    let index = chance.bytes(before + pixels + behind);
    let mut first = before;
    if chance.one_in(6) {
        let end = index.len();
        first = chance.one_of(&[before + behind + 1, end, end + 1, usize::MAX, usize::MAX - pixels, 1 << 32]);
    }
    if chance.one_in(8) {
        let length = chance.one_of(&[0, 1, 2, 4, 191, 192, 193, 194, 195]);
        palette.resize_with(length, || chance.long() as u8);
    }
    if chance.one_in(12) {
        cut_strip(chance, &mut strip_bytes);
    }
    bench.compare(&Map { strip: strip_bytes, palette, index, first }, library::map, Model::map).map(drop)
}
