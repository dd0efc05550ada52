//! How the proved library's costs grow: each job at three sizes of what it grows with.
use crate::jobs::rounds::{self, Kind, State};
use crate::jobs::{mapping, palettes, tables, ACCEPTED};
use crate::pictures::{self, Picture};
use crate::race::{figure, race, timed, Pace};
use crate::table::Table;
use kohlenfloh::{calls, Record};

/// The heading of the table of growth.
const HEADING: &str =
    "| Job | grows with | at three sizes | ns for each | times from size to size |\n|---|---|---|---|---|";

/// The best nanoseconds of a job that times itself.
fn best(pace: Pace, job: &mut dyn FnMut() -> f64) -> f64 {
    race(pace, "growth", &mut [&mut || (job(), ())])[0] * 1e9
}

/// Prints a row: a job's times at three sizes, each divided by its size, and how many times each is the one before.
fn row(job: &str, with: &str, unit: &str, seen: [(f64, f64); 3]) {
    let sizes: Vec<String> = seen.iter().map(|(size, _)| size.to_string()).collect();
    let each: Vec<String> = seen.iter().map(|(size, time)| figure(time / size)).collect();
    let steps: Vec<String> = seen.windows(2).map(|two| figure(two[1].1 / two[0].1)).collect();
    println!("| {job} | {with} | {} | {unit}: {} | {} |", sizes.join(", "), each.join(", "), steps.join(", "));
}

/// A picture into an empty table, as one strip.
fn fill(pace: Pace, picture: &Picture) -> (f64, f64) {
    let mut table = Table::empty(1 << 20);
    let time = best(pace, &mut || {
        table.record = Record::default();
        timed(|| tables::proved(&mut table, &picture.raster)).0
    });
    (picture.pixels() as f64, time)
}

/// Some pixels more into a table that is there.
fn add_row(pace: Pace, table: &Table, row: &[u8]) -> f64 {
    best(pace, &mut || {
        let mut table = table.clone();
        timed(|| tables::proved(&mut table, row)).0
    })
}

/// A round from a state.
fn round(pace: Pace, kind: Kind, table: &Table, before: &State) -> f64 {
    best(pace, &mut || rounds::one(before, |shades, members| rounds::proved_round(table, kind, shades, members)).0)
}

/// The palette from the groups of a state.
fn from_groups(pace: Pace, table: &Table, after: &State) -> f64 {
    best(pace, &mut || palettes::once(palettes::proved, table, after).0)
}

/// Mapping a strip to a palette.
fn map(pace: Pace, strip: &[u8], palette: &[u8]) -> f64 {
    let mut index = vec![1; strip.len() / 3];
    best(pace, &mut || timed(|| mapping::proved(strip, palette, &mut index)).0)
}

/// How a picture of a side is made.
type Paint = fn(usize) -> Picture;

/// The jobs that grow with pixels. A photo of the greatest side has more colours than a table.
fn with_pixels(pace: Pace, sides: [usize; 3]) {
    let paints: [(Paint, usize); 3] = [(pictures::drawing, 1), (pictures::scan, 1), (pictures::photo, 2)];
    for (paint, part) in paints {
        let all = sides.map(|side| paint(side / part));
        let name = &all[0].name;
        row("table, one strip", &format!("pixels of a {name}"), "pixel", [0, 1, 2].map(|size| fill(pace, &all[size])));
        let palette = palettes::palette(&tables::table_of(&all[0]), 16);
        let mapped = |picture: &Picture| (picture.pixels() as f64, map(pace, &picture.raster, &palette));
        row("mapping, k = 16", &format!("pixels of a {name}"), "pixel", [0, 1, 2].map(|size| mapped(&all[size])));
    }
}

/// The jobs that grow with the colours of a table.
fn with_colours(pace: Pace, sides: [usize; 3]) {
    let pictures = sides.map(pictures::photo);
    let tables = [0, 1, 2].map(|size| tables::table_of(&pictures[size]));
    let sized = |time: &dyn Fn(&Table) -> f64| [0, 1, 2].map(|size| (tables[size].used() as f64, time(&tables[size])));
    row("the table's test", "colours", "colour", sized(&|table| add_row(pace, table, &[])));
    row("a pixel", "colours", "colour", sized(&|table| add_row(pace, table, &[7, 7, 7])));
    let strip = pictures::scan(64).raster;
    row("4,096 pixels", "colours", "colour", sized(&|table| add_row(pace, table, &strip)));
    let at = |kind: Kind, made: usize| sized(&|table| round(pace, kind, table, &rounds::state(table, 16, made)));
    row("plain round, k = 16", "colours", "colour", at(Kind::Plain, 10));
    row("short round 1, k = 16", "colours", "colour", at(Kind::First, 0));
    row("late short round, k = 16", "colours", "colour", at(Kind::Late, 10));
    let made = sized(&|table| from_groups(pace, table, &rounds::state(table, 16, 10)));
    row("palette from groups, k = 16", "colours", "colour", made);
}

/// The jobs that grow with shades.
fn with_shades(pace: Pace, side: usize) {
    let (drawing, photo) = (pictures::drawing(side), pictures::photo(side));
    for picture in [&drawing, &photo] {
        let table = tables::table_of(picture);
        let sized = |time: &dyn Fn(usize) -> f64| [4, 16, 64].map(|count| (count as f64, time(count)));
        let colours = format!("shades, {} colours", table.used());
        let at =
            |kind: Kind, made: usize| sized(&|count| round(pace, kind, &table, &rounds::state(&table, count, made)));
        row("plain round", &colours, "shade", at(Kind::Plain, 10));
        row("short round 1", &colours, "shade", at(Kind::First, 0));
        row("late short round", &colours, "shade", at(Kind::Late, 10));
        let made = sized(&|count| from_groups(pace, &table, &rounds::state(&table, count, 10)));
        row("palette from groups", &colours, "shade", made);
        let palette = |count: usize| palettes::palette(&table, count);
        let pixels = format!("entries, a {}", picture.name);
        row("mapping", &pixels, "entry", sized(&|count| map(pace, &picture.raster, &palette(count))));
    }
    let (coordinates, mut palette) = ([7; 192], [0; 192]);
    let mut time = |count: usize| {
        let shades = &coordinates[..3 * count];
        best(pace, &mut || timed(|| calls::palette_from_shades(shades, &mut palette).expect(ACCEPTED)).0)
    };
    row("palette", "shades", "shade", [4, 16, 64].map(|count| (count as f64, time(count))));
    // Entry q is (3 q, 3 q + 1, 3 q + 2), so that no two are equal.
    let entries: Vec<u8> = (0..192).collect();
    let time = |count: usize| best(pace, &mut || timed(|| mapping::proved_twins(&entries[..3 * count])).0);
    row("test for twins", "entries", "entry", [4, 16, 64].map(|count| (count as f64, time(count))));
}

/// The header, which grows with its own bytes: white bytes, and those of a comment.
fn with_bytes(pace: Pace) {
    let padded = |between: &[u8]| {
        let header = [b"P6", between, b"1 1 255 abc"].concat();
        (header.len() as f64, best(pace, &mut || timed(|| mapping::proved_reading(&header)).0))
    };
    let sizes = [100, 10_000, 1_000_000];
    row("P6 header", "bytes of white space", "byte", sizes.map(|bytes| padded(&vec![b' '; bytes])));
    let comment = |bytes: usize| [b"#", vec![b'c'; bytes - 2].as_slice(), b"\n"].concat();
    row("P6 header", "bytes of comment", "byte", sizes.map(|bytes| padded(&comment(bytes))));
}

/// The whole table of growth.
pub fn all(pace: Pace, quick: bool) {
    println!("{HEADING}");
    let part = if quick { 2 } else { 1 };
    with_pixels(pace, [512, 1024, 2048].map(|side| side / part));
    with_colours(pace, [256, 512, 1024].map(|side| side / part));
    with_shades(pace, 1024 / part);
    with_bytes(pace);
}
