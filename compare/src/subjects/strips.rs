//! A picture taken in strips: the table and the index picture are those of the whole, and the errors add up to its.
use super::Subject;
use crate::ask::{Add, Map, Table};
use crate::bench::Bench;
use crate::chance::Chance;
use crate::library;
use crate::make::colours::{levels, strip};
use crate::make::palettes;
use crate::make::table::table;
use crate::model::Model;
use crate::outcome::{same_values, Difference, Outcome};

pub const SUBJECT: Subject = Subject {
    name: "strips",
    cases: 20_000,
    one_case,
    meets: &[
        "an empty strip",
        "FULL by room",
        "FULL by pixels",
        "no pixels",
        "a stretch up to the end",
        "twins and no pixels",
    ],
    refuses: &[3, 18],
};

/// The pixels of a picture cut into strips, some of them empty.
fn cut(chance: &mut Chance, pixels: &[u8]) -> Vec<Vec<u8>> {
    let most = chance.one_of(&[1, 5, 40, 300]);
    let mut strips = Vec::new();
    let mut rest = pixels;
    while !rest.is_empty() {
        let (strip, others) = rest.split_at(3 * chance.between(0, most).min(rest.len() / 3));
        strips.push(strip.to_vec());
        rest = others;
    }
    strips
}

/// One picture, whole and in strips.
fn one_case(bench: &mut Bench, chance: &mut Chance) -> Result<(), Difference> {
    let levels = levels(chance);
    let count = chance.one_of(&[0, 3, 30, 100, 300, 700]);
    let pixels = strip(chance, &levels, count);
    let strips = cut(chance, &pixels);
    let mut before = table(chance, &levels, 20);
    let more = chance.below(count + 1);
    before.keys.extend(chance.words(more));
    before.weights.extend(chance.words(more));
    let whole = bench.compare(&Add { table: before.clone(), strip: pixels.clone() }, library::add, Model::add)?;
    let in_strips = add_strips(bench, before, &strips)?;
    in_strips.against(&whole)?;
    let palette = palettes::palette(chance, &levels);
    let index = chance.bytes(count);
    let ask = Map { strip: pixels, palette, index, first: 0 };
    map_strips(bench, &ask, &strips)
}

/// The strips added one after the other up to the first refusal: the last outcome, with all the pixels taken.
fn add_strips(bench: &mut Bench, table: Table, strips: &[Vec<u8>]) -> Result<Outcome, Difference> {
    let mut ask = Add { table, strip: Vec::new() };
    let mut last = bench.compare(&ask, library::add, Model::add)?;
    let mut taken = 0;
    for strip in strips {
        ask.strip.clone_from(strip);
        last = bench.compare(&ask, library::add, Model::add)?;
        taken += last.longs("taken")[0];
        ask.table = Table::left_by(&last);
        if last.refusal != 0 {
            break;
        }
    }
    last.fields[0].1 = crate::outcome::Values::Longs(vec![taken]);
    Ok(last)
}

/// The strips mapped one after the other, held against the whole; to a palette with twins none of them is.
fn map_strips(bench: &mut Bench, ask: &Map, strips: &[Vec<u8>]) -> Result<(), Difference> {
    let whole = bench.compare(ask, library::map, Model::map)?;
    let mut part = ask.clone();
    let mut errors = [0; 4];
    for strip in strips {
        part.strip.clone_from(strip);
        let seen = bench.compare(&part, library::map, Model::map)?;
        Difference::unless_equal("refusal of a strip", seen.refusal, whole.refusal)?;
        let each = errors.iter_mut().zip(seen.longs("error, R, G, B, mean or none, lower, higher"));
        each.for_each(|(sum, error)| *sum += error);
        part.index = seen.bytes("index").to_vec();
        part.first += strip.len() / 3;
    }
    let due = &whole.longs("error, R, G, B, mean or none, lower, higher")[..4];
    Difference::unless_equal("errors in strips", &errors[..], due)?;
    same_values("index in strips", &crate::outcome::Values::Bytes(part.index), whole.field("index"))
}
