//! Times the proved library beside plain Rust, job by job, and prints a table in Markdown.
//!
//! usage: bench [--quick] [--pictures FOLDER | --growth] [PICTURE.ppm..]
//! Pictures that are named come behind the three that are made. With a folder it times nothing, but writes each picture
//! there as a P6 file, its palettes as P6 files of one row, its table, and its starting shades. With --growth it times
//! the proved library alone, each job at three sizes.
mod floors;
mod forms;
mod growth;
mod jobs;
mod pictures;
mod race;
mod table;

use jobs::rounds::{stock, Kind, RunKind};
use jobs::{colours, kinds, mapping, palettes, rounds, tables};
use pictures::Picture;
use race::Pace;
use table::Table;

/// The counts of shades of runs, of palettes and of mapping.
const COUNTS: [usize; 3] = [8, 16, 64];

/// The heading of the table of jobs.
const HEADING: &str =
    "| Job | Picture | ns for each | Proved | Rust, usual form | Ratio | Rust, best form | Ratio | Form |
|---|---|---|---|---|---|---|---|---|";

/// The heading of the table of floors.
const FLOORS: &str =
    "| Table, one strip, ns a pixel | Proved | Floor: a count for each key, 64 MiB | Floor: a bit for each key, 3 MiB |
|---|---|---|---|";

/// What the command line asks for.
#[derive(Default)]
struct Asked {
    quick: bool,
    growth: bool,
    folder: Option<String>,
    files: Vec<String>,
}

/// Reads the command line.
fn asked() -> Asked {
    let mut asked = Asked::default();
    let mut words = std::env::args().skip(1);
    while let Some(word) = words.next() {
        match word.as_str() {
            "--quick" => asked.quick = true,
            "--growth" => asked.growth = true,
            "--pictures" => asked.folder = Some(words.next().expect("a folder after --pictures")),
            _ => asked.files.push(word),
        }
    }
    asked
}

/// The three pictures that are made, with sides halved for a quick look, and those of files.
fn all(asked: &Asked) -> std::io::Result<Vec<Picture>> {
    let part = if asked.quick { 2 } else { 1 };
    let mut all = vec![pictures::drawing(2048 / part), pictures::scan(2048 / part), pictures::photo(1024 / part)];
    for file in &asked.files {
        all.push(Picture::of_file(file)?);
    }
    Ok(all)
}

/// Every job on one picture.
fn every_job(pace: Pace, picture: &Picture) {
    let table = tables::table_of(picture);
    tables::whole(pace, picture);
    tables::rows(pace, picture);
    tables::test(pace, picture, &table);
    tables::pixel(pace, picture, &table);
    for count in [16, 64] {
        let (start, late) = (rounds::state(&table, count, 0), rounds::state(&table, count, 10));
        rounds::single(pace, Kind::Plain, picture, &table, &late);
        rounds::single(pace, Kind::First, picture, &table, &start);
        rounds::single(pace, Kind::Late, picture, &table, &late);
        rounds::whole(pace, RunKind::Lloyd, picture, &table, [count, 1]);
    }
    for kind in [RunKind::Lloyd, RunKind::Jancey] {
        for count in COUNTS {
            rounds::whole(pace, kind, picture, &table, [count, 20]);
        }
    }
    for count in COUNTS {
        rounds::whole(pace, RunKind::Fixed(&stock(&table, count / 4)), picture, &table, [count, 20]);
    }
    for count in COUNTS {
        palettes::from_groups(pace, picture, &table, count);
    }
    for count in COUNTS {
        mapping::whole(pace, picture, &palettes::palette(&table, count));
    }
    for count in [16, 64] {
        mapping::twins(pace, picture, &palettes::palette(&table, count));
    }
    mapping::read(pace, picture);
}

/// Every kind of run on every picture: what a round costs, and the rounds to rest.
fn kinds_of_run(pace: Pace, pictures: &[Picture]) {
    let tables: Vec<Table> = pictures.iter().map(tables::table_of).collect();
    println!("\n{}", kinds::JANCEY_COSTS);
    for (picture, table) in pictures.iter().zip(&tables) {
        for count in [6, 16, 64] {
            let cost = |limit: usize| kinds::cost(pace, RunKind::Jancey, picture, table, [count, limit]);
            [1, 5, 20].into_iter().for_each(cost);
        }
    }
    println!("\n{}", kinds::FIXED_COSTS);
    for (picture, table) in pictures.iter().zip(&tables) {
        for (count, fixed) in [(6, 1), (6, 3), (16, 1), (16, 8), (64, 1), (64, 32), (64, 63)] {
            let stock = stock(table, fixed);
            let cost = |limit: usize| kinds::cost(pace, RunKind::Fixed(&stock), picture, table, [count, limit]);
            [1, 5, 20].into_iter().for_each(cost);
        }
    }
    println!("\n{}", kinds::ROUNDS);
    for (picture, table) in pictures.iter().zip(&tables) {
        [2, 6, 16, 32, 64].iter().for_each(|count| kinds::rounds(picture, table, *count));
    }
}

/// A table as lines of key and weight.
fn lines_of(table: &Table) -> String {
    let (_, keys, weights) = table.contents();
    keys.iter().zip(weights).map(|(key, weight)| format!("{key} {weight}\n")).collect()
}

/// Writes pictures, their palettes and tables, and their starting shades as lines of three coordinates.
fn write_all(pictures: &[Picture], folder: &str) -> std::io::Result<()> {
    for picture in pictures {
        std::fs::write(format!("{folder}/{}.ppm", picture.name), picture.file())?;
        let table = tables::table_of(picture);
        std::fs::write(format!("{folder}/{}.table", picture.name), lines_of(&table))?;
        for count in COUNTS {
            let starts: String =
                rounds::starts(&table, count).chunks(3).map(|s| format!("{} {} {}\n", s[0], s[1], s[2])).collect();
            std::fs::write(format!("{folder}/{}-{count}.starts", picture.name), starts)?;
            let mut bytes = format!("P6\n{count} 1\n255\n").into_bytes();
            bytes.extend(palettes::palette(&table, count));
            std::fs::write(format!("{folder}/{}-{count}.ppm", picture.name), bytes)?;
        }
    }
    Ok(())
}

fn main() -> std::io::Result<()> {
    let asked = asked();
    let pace = if asked.quick { Pace { seconds: 0.05, least: 2 } } else { Pace { seconds: 1.0, least: 5 } };
    if asked.growth {
        growth::all(pace, asked.quick);
        return Ok(());
    }
    let pictures = all(&asked)?;
    if let Some(folder) = &asked.folder {
        return write_all(&pictures, folder);
    }
    println!("{HEADING}");
    pictures.iter().for_each(|picture| every_job(pace, picture));
    println!("\n{FLOORS}");
    pictures.iter().for_each(|picture| println!("{}", tables::floor(pace, picture)));
    kinds_of_run(pace, &pictures);
    println!("\n{}", colours::HEADING);
    colours::all(pace);
    Ok(())
}
