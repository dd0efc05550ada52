//! The boundaries of fixed shades: lengths of their list, their number beside the count, the colours left for free
//! ones, and which refusal comes first.
use super::{colours, palette, refused_by};
use crate::ask::{PaletteFromGroups, Run, RunFixed, Table};
use crate::bench::Bench;
use crate::library;
use crate::make::fixed::levels_of;
use crate::make::table::of_entries;
use crate::model::{Model, BAD_COUNT, BAD_LIMIT, BAD_PALETTE, BAD_TABLE, FEW_COLOURS, MOST_SHADES, SHORT_ROOM};
use crate::outcome::{Difference, Outcome};

/// Every boundary of fixed shades but those of a full table.
pub fn all(bench: &mut Bench) -> Result<(), Difference> {
    lengths(bench)?;
    numbers(bench)?;
    numbers_told_to_a_palette(bench)?;
    colours_left(bench)?;
    limits(bench)?;
    order(bench)
}

/// A run with fixed shades that answers this number: what it leaves.
pub fn run(bench: &mut Bench, number: u32, ask: &RunFixed) -> Result<Outcome, Difference> {
    refused_by(number, bench.compare(ask, library::run_fixed, Model::run_fixed)?)
}

/// What is asked of a table in so many shades, with these fixed ones.
fn ask(table: Table, count: usize, fixed: Vec<u8>) -> RunFixed {
    let members = vec![9; table.used()];
    RunFixed { run: Run { table, count, limit: 0, members, totals: vec![7; 100] }, fixed }
}

/// The bytes of so many entries of a table, from its first on.
fn first_entries(table: &Table, count: usize) -> Vec<u8> {
    table.keys[..count].iter().flat_map(|&key| levels_of(key)).collect()
}

/// On a table of 1,048,576 entries, 1 fixed shade and 63: accepted, and refused where a member is missing.
pub fn on_most_entries(bench: &mut Bench, plain: &Run) -> Result<(), Difference> {
    for (fixed, count, limit) in [(1, 4, 3), (63, 64, 1)] {
        let run_of_so_many = Run { count, limit, ..plain.clone() };
        let mut ask = RunFixed { fixed: first_entries(&plain.table, fixed), run: run_of_so_many };
        run(bench, 0, &ask)?;
        ask.run.members.pop();
        run(bench, SHORT_ROOM, &ask)?;
    }
    Ok(())
}

/// Lists of 0 to 200 bytes: 3 to 189 in whole triples are accepted.
fn lengths(bench: &mut Bench) -> Result<(), Difference> {
    for length in 0..=200 {
        let good = (3..=189).contains(&length) && length % 3 == 0;
        let fixed = (0..length).map(|place| (place * 37) as u8).collect();
        run(bench, if good { 0 } else { BAD_PALETTE }, &ask(colours(150), MOST_SHADES, fixed))?;
    }
    Ok(())
}

/// Counts about the number of fixed shades, and about 64.
fn numbers(bench: &mut Bench) -> Result<(), Difference> {
    for fixed in [1, 2, 31, 62, 63] {
        let table = colours(150);
        let stock = first_entries(&table, fixed);
        let shades = [0, 1, fixed - 1, fixed, fixed + 1, 63, 64, 65, 1 << 32, usize::MAX];
        for count in shades {
            let number = if (fixed + 1..=MOST_SHADES).contains(&count) { 0 } else { BAD_COUNT };
            run(bench, number, &ask(table.clone(), count, stock.clone()))?;
        }
    }
    Ok(())
}

/// A palette told of as many fixed shades as leave a free one, of one more, and of numbers that are no shades.
fn numbers_told_to_a_palette(bench: &mut Bench) -> Result<(), Difference> {
    for count in [1, 2, 63, 64] {
        for fixed in [0, count - 1, count, count + 1, 64, 65, 256, 1 << 32, (1 << 32) + 1, 1 << 63, usize::MAX] {
            // The last shade has all colours, and the others have none.
            let (table, members) = (colours(9), vec![count as u32 - 1; 9]);
            let ask =
                PaletteFromGroups { table, coordinates: vec![24; 3 * count], members, fixed, palette: vec![7; 192] };
            let made = palette(bench, if fixed < count { 0 } else { BAD_COUNT }, &ask)?;
            let due = if fixed < count { 2 } else { 7 };
            let before_last = made[..3 * count - 3].iter().all(|&byte| byte == due);
            Difference::unless_equal("bytes before the last shade's as they are due", before_last, true)?;
        }
    }
    Ok(())
}

/// As many colours left as free shades, and one fewer: with fixed shades that are colours of the table, that are not,
/// that are equal, and with every colour fixed; weights do not matter.
fn colours_left(bench: &mut Bench) -> Result<(), Difference> {
    let table = |used: u32, weight: u32| of_entries((0..used).map(|number| (256 * number + 1, weight)));
    let colour = |number: u8| [0, number, 1];
    let other = |number: u8| [9, number, 1];
    for weight in [1, 1000] {
        for (used, fixed, free) in [
            // two colours, two fixed shades that are neither
            (2, vec![other(0), other(1)], 2),
            (2, vec![colour(0), other(1)], 1),
            (3, vec![colour(1), colour(1)], 2),
            (3, vec![colour(0), colour(2), colour(0), other(3)], 1),
            (40, (0..63).map(other).collect(), 1),
            (63, (0..62).map(colour).collect(), 1),
            (64, (0..62).map(colour).collect(), 2),
            (30, (0..40).map(|number| colour(number % 20)).collect(), 10),
        ] {
            let stock: Vec<u8> = fixed.concat();
            let count = fixed.len() + free;
            run(bench, 0, &ask(table(used, weight), count, stock.clone()))?;
            if count < MOST_SHADES {
                run(bench, FEW_COLOURS, &ask(table(used, weight), count + 1, stock))?;
            }
        }
        for used in [0, 1, 2, 62] {
            let stock: Vec<u8> = (0..used.max(1) as u8).flat_map(colour).collect();
            let count = stock.len() / 3 + 1;
            run(bench, FEW_COLOURS, &ask(table(used, weight), count, stock))?;
        }
    }
    Ok(())
}

/// Limits of 200 and 201; a limit of 0 with 100 totals and with 99.
fn limits(bench: &mut Bench) -> Result<(), Difference> {
    for (limit, totals, number) in
        [(200, 200, 0), (201, 201, BAD_LIMIT), (200, 199, SHORT_ROOM), (0, 100, 0), (0, 99, SHORT_ROOM)]
    {
        let mut ask = ask(colours(60), 9, vec![100, 100, 100]);
        (ask.run.limit, ask.run.totals) = (limit, vec![7; totals]);
        run(bench, number, &ask)?;
    }
    Ok(())
}

/// Each refusal that a run with fixed shades can meet, with any of the others: the first in the order is given.
fn order(bench: &mut Bench) -> Result<(), Difference> {
    let order = [BAD_TABLE, BAD_PALETTE, BAD_COUNT, FEW_COLOURS, BAD_LIMIT, SHORT_ROOM];
    for case in 0..64 {
        let holds = [1, 2, 4, 8, 16, 32].map(|bit| case & bit != 0);
        let [table, list, count, few, limit, short] = holds;
        let mut ask = ask(colours(3), 4, vec![200, 200, 200]);
        ask.run.table.record.red += u64::from(table);
        ask.fixed.extend(list.then_some(200));
        // 65 shades are too many for the count, and for the colours.
        ask.run.count = if count { 65 } else { 4 + usize::from(few) };
        ask.run.limit = if limit { 201 } else { 0 };
        ask.run.members.truncate(3 - usize::from(short));
        let first = order.into_iter().zip(holds).find(|(_, holds)| *holds).map_or(0, |(number, _)| number);
        run(bench, first, &ask)?;
    }
    Ok(())
}
