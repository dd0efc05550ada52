//! Adding a strip to a table: good and damaged tables, tight and wide room, strips long and short.
use super::Subject;
use crate::ask::Add;
use crate::bench::Bench;
use crate::chance::Chance;
use crate::library;
use crate::make::colours::{cut_strip, length, levels, strip};
use crate::make::table::{damage, table};
use crate::model::Model;
use crate::outcome::Difference;

pub const SUBJECT: Subject = Subject {
    name: "add",
    cases: 500_000,
    one_case,
    meets: &[
        "a strip not a multiple of 3",
        "an empty strip",
        "FULL by pixels",
        "FULL by room",
        "FULL with nothing taken",
        "FULL with pixels taken",
        "FULL before a level that is not 0",
        "a bad strip on an untrue record",
    ],
    refuses: &[1, 2, 3],
};

/// One strip added to one table.
fn one_case(bench: &mut Bench, chance: &mut Chance) -> Result<(), Difference> {
    let levels = levels(chance);
    let most = chance.one_of(&[0, 3, 10, 10, 40, 40, 700]);
    let mut table = table(chance, &levels, most);
    let pixels = length(chance);
    if chance.one_in(2) {
        let more = pixels + chance.below(3);
        table.keys.extend(chance.words(more));
        table.weights.extend(chance.words(more));
    }
    let mut strip = strip(chance, &levels, pixels);
    if chance.one_in(4) {
        damage(chance, &mut table);
    }
    if chance.one_in(12) {
        cut_strip(chance, &mut strip);
    }
    bench.compare(&Add { table, strip }, library::add, Model::add).map(drop)
}
