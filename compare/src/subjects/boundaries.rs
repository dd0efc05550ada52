//! The boundaries that the documents name, met on purpose: the largest table, sums and picture, and each bound from
//! both sides. The model computes these too; it only takes longer.
mod fixed;

use kohlenfloh::Record;

use super::Subject;
use crate::ask::{Add, Map, Palette, PaletteFromGroups, Picture, Round, Run, RunFixed, Search, Table};
use crate::bench::Bench;
use crate::chance::Chance;
use crate::library;
use crate::make::palettes::distinct;
use crate::make::shades;
use crate::make::table::{of_entries, record_of};
use crate::model::{
    Model, BAD_CENTRE, BAD_COUNT, BAD_LIMIT, BAD_MEMBER, BAD_PALETTE, BAD_SIZE, BAD_STRIP, BAD_TABLE, FULL,
    MANY_PIXELS, MOST_SHADES, SHORT_ROOM, TWIN_SHADE,
};
use crate::outcome::{Difference, Outcome};

const ENTRIES: usize = 1_048_576;
const PIXELS: usize = 16_777_216;

pub const SUBJECT: Subject = Subject {
    name: "boundaries",
    cases: 1,
    one_case,
    meets: &[
        "FULL by room",
        "FULL by pixels",
        "FULL with pixels taken",
        "mapping over 16,777,216 pixels",
        "a group of 16,777,216 pixels",
        "a group's mean at a half",
        "a group's mean just below a half",
        "a group's mean just above a half",
        "a step held to 0",
        "a step held to 4080",
        "63 fixed shades and 64 shades",
        "as many fixed shades as shades",
        "2^32 fixed shades and more",
        "colours left just as many as free shades",
        "colours left one fewer than free shades",
        "every table colour fixed",
        "two colours, two fixed shades that are neither, four shades",
        "190 fixed bytes",
        "191 fixed bytes",
        "192 fixed bytes",
        "2 and 10 at once",
        "10 and 4 at once",
        "4 and 5 at once",
        "5 and 6 at once",
        "6 and 7 at once",
        "64 entries, no two of them equal",
        "twins at 0 and 63",
        "all entries equal",
        "1 and 18 at once",
        "10 and 18 at once",
        "18 and 11 at once",
        "18 and 7 at once",
    ],
    refuses: &[1, 3, 4, 5, 6, 7, 8, 9, 10, 11, 13, 15, 18],
};

/// Every boundary once.
fn one_case(bench: &mut Bench, chance: &mut Chance) -> Result<(), Difference> {
    let table = most_entries(bench, chance)?;
    on_most_entries(bench, chance, table)?;
    greatest_weights(bench)?;
    most_pixels(bench)?;
    greatest_sums(bench)?;
    greatest_groups(bench)?;
    halves_of_most_pixels(bench)?;
    greatest_steps(bench)?;
    room_for_a_palette(bench)?;
    numbers_of_shades(bench, chance)?;
    numbers_of_rounds(bench, chance)?;
    rounds_past_the_usual_limit(bench)?;
    most_coordinate(bench)?;
    fixed::all(bench)?;
    stretches(bench, chance)?;
    twins_of_most_entries(bench, chance)?;
    many_pixels_mapped(bench, chance)?;
    sizes(bench, chance)
}

/// An outcome of the refusal number that a boundary is about; the model could be wrong about it with the library.
fn refused_by(number: u32, seen: Outcome) -> Result<Outcome, Difference> {
    Difference::unless_equal("refusal at a boundary", seen.refusal, number)?;
    Ok(seen)
}

/// An add that answers this number.
fn add(bench: &mut Bench, number: u32, ask: &Add) -> Result<Table, Difference> {
    let seen = refused_by(number, bench.compare(ask, library::add, Model::add)?)?;
    Ok(Table::left_by(&seen))
}

/// The three bytes of a key.
fn pixel(key: usize) -> [u8; 3] {
    [(key / 65536) as u8, (key / 256) as u8, key as u8]
}

/// A table of 1,048,576 entries filled in slices that are longer: a known colour is taken, one more is not.
fn most_entries(bench: &mut Bench, chance: &mut Chance) -> Result<Table, Difference> {
    // An odd factor steps through all keys in no order; the low four bits of each are those of its number.
    let keys = (0..ENTRIES).map(|number| (number * 0x9E_3779 * 16 + 5) % (1 << 24));
    let strip: Vec<u8> = keys.flat_map(pixel).collect();
    let longer = ENTRIES + 3;
    let table = Table { record: Record::default(), keys: chance.words(longer), weights: chance.words(longer + 2) };
    let table = add(bench, 0, &Add { table, strip })?;
    Difference::unless_equal("entries of a full table", table.used(), ENTRIES)?;
    let (known, unknown) = (pixel(5), pixel(6));
    let table = add(bench, FULL, &Add { table, strip: unknown.to_vec() })?;
    let table = add(bench, 0, &Add { table, strip: known.to_vec() })?;
    let mut table = add(bench, FULL, &Add { table, strip: [known, unknown, known].concat() })?;
    let before = table.clone();
    let last = table.used();
    (table.keys[last], table.weights[last]) = (16_777_215, 1);
    table.record = record_of(&table.keys[..=last], &table.weights[..=last]);
    add(bench, BAD_TABLE, &Add { table, strip: Vec::new() })?;
    Ok(before)
}

/// Rounds and a short run on the table of 1,048,576 entries.
fn on_most_entries(bench: &mut Bench, chance: &mut Chance, table: Table) -> Result<(), Difference> {
    let all: Vec<u8> = (0..=255).collect();
    let coordinates = shades::coordinates(chance, &all, MOST_SHADES);
    let members: Vec<u32> = (0..table.used()).map(|place| (place % MOST_SHADES) as u32).collect();
    let mut round = Round { search: Search::Plain, table: table.clone(), coordinates, members };
    for search in [Search::Plain, Search::Shortened] {
        round.search = search;
        refused_by(0, bench.compare(&round, library::round, Model::round)?)?;
    }
    let (coordinates, members) = (round.coordinates, round.members);
    let palette_bytes = chance.bytes(192);
    let mut ask = PaletteFromGroups { table: table.clone(), coordinates, members, fixed: 0, palette: palette_bytes };
    palette(bench, 0, &ask)?;
    ask.fixed = 63;
    palette(bench, 0, &ask)?;
    *ask.members.last_mut().expect("there are members") = MOST_SHADES as u32;
    palette(bench, BAD_MEMBER, &ask)?;
    ask.members.pop();
    palette(bench, SHORT_ROOM, &ask)?;
    let mut run = Run { table, count: 4, limit: 3, members: chance.words(ENTRIES), totals: vec![7; 3] };
    runs(bench, 0, &run)?;
    fixed::on_most_entries(bench, &run)?;
    run.members.pop();
    runs(bench, SHORT_ROOM, &run).map(drop)
}

/// Runs by both rules that answer this number: what they leave, Lloyd's first.
fn runs(bench: &mut Bench, number: u32, ask: &Run) -> Result<[Outcome; 2], Difference> {
    let lloyd = refused_by(number, bench.compare(ask, library::run, Model::run)?)?;
    let jancey = refused_by(number, bench.compare(ask, library::run_jancey, Model::run_jancey)?)?;
    Ok([lloyd, jancey])
}

/// A palette from groups that answers this number: its bytes then.
fn palette(bench: &mut Bench, number: u32, ask: &PaletteFromGroups) -> Result<Vec<u8>, Difference> {
    let seen = bench.compare(ask, library::palette_from_groups, Model::palette_from_groups)?;
    Ok(refused_by(number, seen)?.bytes("palette").to_vec())
}

/// A table is bad for every call that takes one.
fn bad_for_all(bench: &mut Bench, table: &Table) -> Result<(), Difference> {
    add(bench, BAD_TABLE, &Add { table: table.clone(), strip: vec![1, 2, 3] })?;
    let members = vec![0; table.keys.len()];
    for search in [Search::Plain, Search::Shortened] {
        let (coordinates, members) = (vec![16; 6], members.clone());
        let round = Round { search, table: table.clone(), coordinates, members };
        refused_by(BAD_TABLE, bench.compare(&round, library::round, Model::round)?)?;
    }
    for fixed in [0, 1] {
        let of_groups = PaletteFromGroups {
            table: table.clone(),
            coordinates: vec![16; 6],
            members: members.clone(),
            fixed,
            palette: vec![5; 6],
        };
        palette(bench, BAD_TABLE, &of_groups)?;
    }
    let run = Run { table: table.clone(), count: 2, limit: 1, members, totals: vec![7; 1] };
    runs(bench, BAD_TABLE, &run)?;
    fixed::run(bench, BAD_TABLE, &RunFixed { run, fixed: vec![1; 3] }).map(drop)
}

/// 1,048,576 weights of 2^32 - 1 each: the record tells total and sums as they are, or the most pixels; and one weight
/// less, with which the total and the sums told are what 32 bits hold of them.
fn greatest_weights(bench: &mut Bench) -> Result<(), Difference> {
    let keys: Vec<u32> = (0..ENTRIES as u32).map(|place| 16 * place + 15).collect();
    let mut weights = vec![u32::MAX; ENTRIES];
    let mut table = Table { record: record_of(&keys, &weights), keys: keys.clone(), weights: weights.clone() };
    bad_for_all(bench, &table)?;
    table.record.pixels = PIXELS as u64;
    bad_for_all(bench, &table)?;
    weights[0] = 2 * ENTRIES as u32;
    let Record { used, pixels, red, green, blue, .. } = record_of(&keys, &weights);
    let [pixels, red, green, blue] = [pixels, red, green, blue].map(|one| one % (1 << 32));
    Difference::unless_equal("pixels told by 32 bits", pixels, ENTRIES as u64 + 1)?;
    bad_for_all(bench, &Table { record: Record::new(used, pixels, [red, green, blue]), keys, weights })
}

/// 16,777,216 pixels of level 255 in each channel, by one strip and by its last pixel: sums of 4,278,190,080, which 32
/// bits hold; no others are taken for them.
fn greatest_sums(bench: &mut Bench) -> Result<(), Difference> {
    let table = Table { record: Record::default(), keys: vec![0; 2], weights: vec![0; 2] };
    let table = add(bench, 0, &Add { table, strip: vec![255; 3 * PIXELS] })?;
    let greatest = 255 * PIXELS as u64;
    Difference::unless_equal("greatest sums", table.record, Record::new(1, PIXELS as u64, [greatest; 3]))?;
    Difference::unless_equal("the greatest sum", greatest, 4_278_190_080)?;
    let table = add(bench, FULL, &Add { table, strip: vec![255; 3] })?;
    let run = Run { table: table.clone(), count: 1, limit: 0, members: vec![9; 1], totals: vec![7; 100] };
    for seen in runs(bench, 0, &run)? {
        Difference::unless_equal("the shade of white", &seen.words("shades")[..3], &[4080; 3])?;
    }
    for sum in [greatest - 1, greatest + 1, greatest + (1 << 32), 0] {
        for channel in 0..3 {
            let mut sums = [greatest; 3];
            sums[channel] = sum;
            bad_for_all(bench, &Table { record: Record::new(1, PIXELS as u64, sums), ..table.clone() })?;
        }
    }
    let (keys, weights) = (vec![16_777_215], vec![PIXELS as u32 - 1]);
    let table = Table { record: record_of(&keys, &weights), keys, weights };
    let table = add(bench, FULL, &Add { table, strip: vec![255; 6] })?;
    Difference::unless_equal("greatest sums by one pixel", table.record.green, greatest)
}

/// 16,777,216 pixels of level 255 in one group, by one entry and by many: the level is 255, and that of a shade with no
/// group or of a fixed one is its own.
fn greatest_groups(bench: &mut Bench) -> Result<(), Difference> {
    let one = of_entries([(16_777_215, PIXELS as u32)]);
    // All colours with R at 255, 65,536 of them; G and B have the mean 127 and a half.
    let many = of_entries((255 << 16..1 << 24).map(|key| (key, 256)));
    for (table, levels) in [(one, [255; 3]), (many, [255, 128, 128])] {
        for number in [0, 1, 63] {
            for fixed in [0, 1, 2, 63] {
                let (coordinates, members) = (vec![40; 192], vec![number; table.used()]);
                let ask =
                    PaletteFromGroups { table: table.clone(), coordinates, members, fixed, palette: vec![9; 193] };
                let mut due = [vec![3; 192], vec![9]].concat();
                if number as usize >= fixed {
                    due[3 * number as usize..][..3].copy_from_slice(&levels);
                }
                Difference::unless_equal("the palette of one group", palette(bench, 0, &ask)?, due)?;
            }
        }
    }
    Ok(())
}

/// 16,777,216 pixels of two levels, as many of the one as of the other, and one more of either: a mean at a half goes up,
/// and one that is just below it does not.
fn halves_of_most_pixels(bench: &mut Bench) -> Result<(), Difference> {
    let half = PIXELS as u32 / 2;
    for (lower, level) in [(half - 1, 255), (half, 255), (half + 1, 254)] {
        let table = of_entries([(0xFE_FEFE, lower), (0xFF_FFFF, PIXELS as u32 - lower)]);
        let (coordinates, members, palette_bytes) = (vec![0; 3], vec![0; 2], vec![7; 3]);
        let ask = PaletteFromGroups { table, coordinates, members, fixed: 0, palette: palette_bytes };
        Difference::unless_equal("a level about a half", palette(bench, 0, &ask)?, vec![level; 3])?;
    }
    Ok(())
}

/// Of 16,777,216 pixels half black and half white, or a few thousand more of either, in two shades: by Jancey's rule
/// the first one steps from between them past the end of the grid, and is held there.
fn greatest_steps(bench: &mut Bench) -> Result<(), Difference> {
    let half = PIXELS as u32 / 2;
    for (black, held) in [(half - 3000, 4080), (half, 4080), (half + 3000, 0)] {
        let table = of_entries([(0, black), (0xFF_FFFF, PIXELS as u32 - black)]);
        let run = Run { table, count: 2, limit: 1, members: vec![9; 2], totals: vec![7; 1] };
        for seen in runs(bench, 0, &run)? {
            Difference::unless_equal("a shade at the end of the grid", &seen.words("shades")[..3], &[held; 3])?;
        }
    }
    Ok(())
}

/// Members as many as used entries and one fewer, bytes 3 a shade and one fewer, a member at the count and below it, a
/// coordinate of 4081, as many fixed shades as shades and one fewer, and none: which refusal comes first of any that hold.
fn room_for_a_palette(bench: &mut Bench) -> Result<(), Difference> {
    for case in 0..32 {
        let [short_members, short_bytes, at_count, high, none_free] = [1, 2, 4, 8, 16].map(|bit| case & bit != 0);
        let mut ask = PaletteFromGroups {
            table: colours(9),
            coordinates: vec![16; 6],
            members: vec![1; 9],
            fixed: 1 + usize::from(none_free),
            palette: vec![7; 6],
        };
        ask.members[0] += u32::from(at_count);
        ask.coordinates[5] = if high { 4081 } else { 4080 };
        ask.members.truncate(9 - usize::from(short_members));
        ask.palette.truncate(6 - usize::from(short_bytes));
        let number = match (high, short_members || short_bytes, at_count) {
            _ if none_free => BAD_COUNT,
            (true, _, _) => BAD_CENTRE,
            (false, true, _) => SHORT_ROOM,
            (false, false, true) => BAD_MEMBER,
            (false, false, false) => 0,
        };
        palette(bench, number, &ask)?;
        if !none_free {
            palette(bench, number, &PaletteFromGroups { fixed: 0, ..ask })?;
        }
    }
    Ok(())
}

/// 16,777,216 pixels, all but a few of them in one strip: one more is not taken, none more is.
fn most_pixels(bench: &mut Bench) -> Result<(), Difference> {
    let table = Table { record: record_of(&[9], &[2]), keys: vec![9, 0, 0, 8], weights: vec![2, 0, 0, 8] };
    let strip = [pixel(9), pixel(70_000)].concat().repeat((PIXELS - 2) / 2);
    let table = add(bench, 0, &Add { table, strip })?;
    Difference::unless_equal("pixels of a full table", table.record.pixels, PIXELS as u64)?;
    let table = add(bench, FULL, &Add { table, strip: pixel(9).to_vec() })?;
    let mut table = add(bench, 0, &Add { table, strip: Vec::new() })?;
    table.weights[0] -= 1;
    table.record = record_of(&table.keys[..2], &table.weights[..2]);
    add(bench, FULL, &Add { table, strip: [pixel(9), pixel(9)].concat() }).map(drop)
}

/// A table of so many colours, one pixel each.
fn colours(count: usize) -> Table {
    let keys = (0..count).map(|number| (number * 7919 % 256 + 65536 * (number % 200)) as u32);
    let mut keys: Vec<u32> = keys.collect();
    keys.sort_unstable();
    let weights = vec![1; count];
    Table { record: record_of(&keys, &weights), keys, weights }
}

/// 64 shades are accepted and 65 are not, by both kinds of run, by both rounds and by both palettes.
fn numbers_of_shades(bench: &mut Bench, chance: &mut Chance) -> Result<(), Difference> {
    for (count, number) in [(64, 0), (65, BAD_COUNT)] {
        let table = colours(100);
        let run = Run { table: table.clone(), count, limit: 0, members: chance.words(100), totals: vec![7; 100] };
        runs(bench, number, &run)?;
        let coordinates = shades::coordinates(chance, &[1, 2, 3], count);
        let of_shades = Palette { coordinates: coordinates.clone(), palette: chance.bytes(195) };
        refused_by(number, bench.compare(&of_shades, library::palette, Model::palette)?)?;
        for fixed in [0, 1, 63] {
            let of_groups = PaletteFromGroups {
                table: table.clone(),
                coordinates: coordinates.clone(),
                members: vec![count as u32 - 1; 100],
                fixed,
                palette: chance.bytes(195),
            };
            palette(bench, number, &of_groups)?;
        }
        for search in [Search::Plain, Search::Shortened] {
            let coordinates = coordinates.clone();
            let round = Round { search, table: table.clone(), coordinates, members: vec![count as u32 - 1; 100] };
            refused_by(number, bench.compare(&round, library::round, Model::round)?)?;
        }
    }
    Ok(())
}

/// Limits of 200 and 201; a limit of 0 with 100 totals, with 99 and with 20, and a limit of 20 with 20 and with 19.
fn numbers_of_rounds(bench: &mut Bench, chance: &mut Chance) -> Result<(), Difference> {
    for (limit, totals, number) in [
        (200, 200, 0),
        (201, 201, BAD_LIMIT),
        (200, 199, SHORT_ROOM),
        (0, 100, 0),
        (0, 99, SHORT_ROOM),
        (0, 20, SHORT_ROOM),
        (20, 20, 0),
        (20, 19, SHORT_ROOM),
    ] {
        let run = Run { table: colours(60), count: 9, limit, members: chance.words(60), totals: vec![7; totals] };
        runs(bench, number, &run)?;
    }
    Ok(())
}

/// A run that would settle in its 131st round, by Jancey's rule in its 81st, and beside a grey that is fixed in its
/// 137th: a limit of 0 ends it after 100, and 200 does not.
fn rounds_past_the_usual_limit(bench: &mut Bench) -> Result<(), Difference> {
    let pixel = |n: usize| [n * n % 251, n * n / 251 % 256, n * 7919 % 253].map(|level| level as u8);
    let strip: Vec<u8> = (0..128 * 128).flat_map(pixel).collect();
    let table = Table { record: Record::default(), keys: vec![0; 128 * 128], weights: vec![0; 128 * 128] };
    let table = add(bench, 0, &Add { table, strip })?;
    for (limit, due) in
        [(0, [[100, 0], [81, 1], [100, 0]]), (20, [[20, 0], [20, 0], [20, 0]]), (200, [[131, 1], [81, 1], [137, 1]])]
    {
        let members = vec![9; table.used()];
        let run = Run { table: table.clone(), count: 12, limit, members, totals: vec![7; 200] };
        let [lloyd, jancey] = runs(bench, 0, &run)?;
        let beside_grey = fixed::run(bench, 0, &RunFixed { run, fixed: vec![128; 3] })?;
        for (seen, due) in [lloyd, jancey, beside_grey].iter().zip(due) {
            let answer = &seen.longs("rounds, settled, distances, final total")[..2];
            Difference::unless_equal("rounds and settled at a boundary", answer, &due)?;
        }
    }
    Ok(())
}

/// Coordinates of 4080 and of 4081, at each place of three shades.
fn most_coordinate(bench: &mut Bench) -> Result<(), Difference> {
    for place in 0..9 {
        for coordinate in [4080, 4081] {
            let mut coordinates = vec![4080; 9];
            coordinates[place] = coordinate;
            let number = if coordinate > 4080 { BAD_CENTRE } else { 0 };
            let of_shades = Palette { coordinates: coordinates.clone(), palette: vec![3; 9] };
            refused_by(number, bench.compare(&of_shades, library::palette, Model::palette)?)?;
            for fixed in 0..3 {
                let of_groups = PaletteFromGroups {
                    table: colours(9),
                    coordinates: coordinates.clone(),
                    // Shades 0 and 2 have a group, and shade 1 has none.
                    members: vec![0, 2, 0, 2, 0, 2, 0, 2, 0],
                    fixed,
                    palette: vec![3; 9],
                };
                palette(bench, number, &of_groups)?;
            }
            let round = Round { search: Search::Plain, table: colours(9), coordinates, members: vec![0; 9] };
            refused_by(number, bench.compare(&round, library::round, Model::round)?)?;
        }
    }
    Ok(())
}

/// First places up to the end, one past it, and so far that first and pixels are no number of the machine.
fn stretches(bench: &mut Bench, chance: &mut Chance) -> Result<(), Difference> {
    for pixels in [0, 1, 5] {
        let firsts = [20 - pixels, 21 - pixels, usize::MAX - pixels, usize::MAX - pixels + usize::from(pixels > 0)];
        for first in firsts.into_iter().chain([usize::MAX]) {
            let palette = distinct(chance, &[0, 90, 200], 3).concat();
            let ask = Map { strip: chance.bytes(3 * pixels), palette, index: chance.bytes(20), first };
            map(bench, if first == 20 - pixels { 0 } else { SHORT_ROOM }, [0, 0], &ask)?;
        }
    }
    Ok(())
}

/// A mapping that answers this number, with this pair.
fn map(bench: &mut Bench, number: u32, pair: [u64; 2], ask: &Map) -> Result<(), Difference> {
    let seen = refused_by(number, bench.compare(ask, library::map, Model::map)?)?;
    let told = &seen.longs("error, R, G, B, mean or none, lower, higher")[5..];
    Difference::unless_equal("the pair at a boundary", told, &pair)
}

/// 64 entries, no two of them equal; two that are, at either end and from end to end; pairs inside each other and
/// across; all equal; and 65 of them. Each with pixels and without.
fn twins_of_most_entries(bench: &mut Bench, chance: &mut Chance) -> Result<(), Difference> {
    let entries = distinct(chance, &[9, 10, 11], MOST_SHADES);
    let equal = |pairs: &[(usize, usize)]| {
        let mut twins = entries.clone();
        pairs.iter().for_each(|&(lower, higher)| twins[higher] = entries[lower]);
        twins
    };
    for (palette, number, pair) in [
        (equal(&[]), 0, [0, 0]),
        (equal(&[(0, 1)]), TWIN_SHADE, [0, 1]),
        (equal(&[(0, 63)]), TWIN_SHADE, [0, 63]),
        (equal(&[(62, 63)]), TWIN_SHADE, [62, 63]),
        (equal(&[(0, 63), (1, 62), (30, 33)]), TWIN_SHADE, [30, 33]),
        (equal(&[(0, 62), (1, 63)]), TWIN_SHADE, [0, 62]),
        (vec![[7; 3]; 64], TWIN_SHADE, [0, 1]),
        (vec![[7; 3]; 65], BAD_PALETTE, [0, 0]),
    ] {
        for pixels in [0, 5] {
            let (strip, index) = (chance.bytes(3 * pixels), chance.bytes(pixels));
            map(bench, number, pair, &Map { strip, palette: palette.concat(), index, first: 0 })?;
        }
    }
    Ok(())
}

/// 16,777,216 pixels mapped by one call, and one more refused; twins before that, and bytes that are no strip before
/// both.
fn many_pixels_mapped(bench: &mut Bench, chance: &mut Chance) -> Result<(), Difference> {
    let palette = distinct(chance, &[0, 90, 200], 3).concat();
    let mut ask = Map { strip: vec![0; 3 * PIXELS], palette, index: vec![9; PIXELS + 1], first: 1 };
    ask.strip.iter_mut().enumerate().for_each(|(place, byte)| *byte = (place * 37 / 11) as u8);
    map(bench, 0, [0, 0], &ask)?;
    ask.first = 2;
    map(bench, SHORT_ROOM, [0, 0], &ask)?;
    ask.strip.extend([1, 2, 3]);
    map(bench, MANY_PIXELS, [0, 0], &ask)?;
    ask.palette.copy_within(3..6, 6);
    map(bench, TWIN_SHADE, [1, 2], &ask)?;
    ask.strip.push(4);
    map(bench, BAD_STRIP, [0, 0], &ask)
}

/// Pictures of the largest sizes, and those just above.
fn sizes(bench: &mut Bench, chance: &mut Chance) -> Result<(), Difference> {
    let mut read = |width: usize, height: usize, number: u32| {
        let mut input = format!("P6 {width}\n{height} 255\n").into_bytes();
        input.resize(input.len() + 3 * width * height, chance.long() as u8);
        refused_by(number, bench.compare(&Picture { input }, library::picture, Model::picture)?).map(drop)
    };
    for (width, height) in [(4096, 4096), (16_384, 1024), (1024, 16_384), (16_384, 1), (1, 16_384)] {
        read(width, height, 0)?;
    }
    for (width, height) in [(4096, 4097), (16_384, 1025), (16_385, 1), (1, 16_385)] {
        read(width, height, BAD_SIZE)?;
    }
    let input = [b"P6 4096 4096 255 ".to_vec(), vec![1; 3 * PIXELS - 1]].concat();
    bench.compare(&Picture { input }, library::picture, Model::picture).map(drop)
}
