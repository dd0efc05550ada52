//! Netpbm's programs as peers: pictures that they write are read, and with comments in them by both; their count of
//! each colour is that of the table, and their mapping to a palette has the same squared error (of two entries as near
//! they may take the other).
use std::fs;
use std::path::{Path, PathBuf};
use std::process::{self, Command};

use kohlenfloh::Record;

use super::Subject;
use crate::ask::{Add, Map, PaletteFromGroups, Picture, Run, Table};
use crate::bench::Bench;
use crate::chance::Chance;
use crate::library;
use crate::make::colours::{levels, strip};
use crate::make::header::{commented, Made};
use crate::make::palettes::each_once;
use crate::model::run::USUAL_LIMIT;
use crate::model::Model;
use crate::outcome::{same_values, Difference, Values};

pub const SUBJECT: Subject = Subject {
    name: "netpbm",
    cases: 400,
    one_case,
    meets: &["a picture read", "a picture with comments", "a mapping without error", "a mapping with an error"],
    refuses: &[],
};

/// A temporary folder that is removed when it goes out of use.
struct Folder(PathBuf);

impl Drop for Folder {
    fn drop(&mut self) {
        let _ = fs::remove_dir_all(&self.0);
    }
}

/// What a program of Netpbm writes to its standard output.
fn output(program: &str, arguments: &[&str]) -> Result<Vec<u8>, Difference> {
    match Command::new(program).args(arguments).output() {
        Ok(done) if done.status.success() => Ok(done.stdout),
        Ok(done) => Err(Difference::new(program, String::from_utf8_lossy(&done.stderr), "its output")),
        Err(_) => Err(Difference::new(program, "missing", "installed (Debian's package netpbm)")),
    }
}

/// A file's path as an argument, once it holds these bytes.
fn file(folder: &Folder, name: &str, bytes: &[u8]) -> Result<String, Difference> {
    let path: &Path = &folder.0.join(name);
    fs::write(path, bytes).map_err(|why| Difference::new("a temporary file", why, "written"))?;
    Ok(path.display().to_string())
}

/// A picture written by Netpbm: one colour, a pattern, two joined, noise, or pixels of ours that it turned into P6.
fn picture(folder: &Folder, chance: &mut Chance) -> Result<Vec<u8>, Difference> {
    let (width, height) = (chance.between(1, 60), chance.between(1, 40));
    let sides = [width.to_string(), height.to_string()];
    let seed = format!("-randomseed={}", chance.below(1000));
    let pattern = chance.one_of(&["-gingham2", "-madras", "-tartan", "-argyle1", "-squig"]);
    let (wide, high) = (format!("{}", width + 30), format!("{}", height + 30));
    match chance.below(4) {
        0 => output("ppmmake", &[&format!("#{:06x}", chance.below(1 << 24)), &sides[0], &sides[1]]),
        1 => output("ppmpat", &[pattern, &seed, &wide, &high]),
        2 => {
            let above = file(folder, "above.ppm", &output("ppmpat", &["-tartan", &seed, &wide, &high])?)?;
            let below = file(folder, "below.ppm", &output("ppmpat", &["-madras", &seed, &wide, &high])?)?;
            output("pnmcat", &["-tb", &above, &below])
        }
        _ => {
            let levels = levels(chance);
            let pixels = strip(chance, &levels, width * height);
            let head = format!("P7\nWIDTH {width}\nHEIGHT {height}\nDEPTH 3\nMAXVAL 255\nTUPLTYPE RGB\nENDHDR\n");
            let pam = file(folder, "ours.pam", &[head.into_bytes(), pixels].concat())?;
            output("pamtopnm", &[&pam])
        }
    }
}

/// One picture of Netpbm's, read, counted and mapped by both.
fn one_case(bench: &mut Bench, chance: &mut Chance) -> Result<(), Difference> {
    let folder = Folder(std::env::temp_dir().join(format!("compare-{}", process::id())));
    fs::create_dir_all(&folder.0).map_err(|why| Difference::new("a temporary folder", why, "made"))?;
    let input = picture(&folder, chance)?;
    let raster = read(bench, &input)?;
    let plain = Made { header: input.len() - raster.len(), input };
    let (input, comments) = commented(chance, &plain);
    let behind = Values::Bytes(read(bench, &input)?);
    same_values("raster behind comments", &behind, &Values::Bytes(raster.clone()))?;
    bench.model.meet_if(!comments.is_empty(), "a picture with comments");
    let path = file(&folder, "picture.ppm", &input)?;
    let table = counted(bench, &raster)?;
    let counts = output("ppmhist", &["-noheader", &path])?;
    Difference::unless_equal("colours and weights by ppmhist", entries(&table), listed(&counts))?;
    let count = chance.between(1, 12).min(table.used());
    let palette = each_once(&palette_of(bench, table, count)?);
    let head = format!("P6\n{} 1\n255\n", palette.len() / 3).into_bytes();
    let map = file(&folder, "palette.ppm", &[head, palette.clone()].concat())?;
    let remapped = output("pnmremap", &["-nofloyd", &format!("-mapfile={map}"), &path])?;
    let theirs = squared_error(&raster, &read(bench, &remapped)?);
    let index = vec![0; raster.len() / 3];
    let seen = bench.compare(&Map { strip: raster, palette, index, first: 0 }, library::map, Model::map)?;
    let ours = seen.longs("error, R, G, B, mean or none, lower, higher")[0];
    bench.model.meet(if ours == 0 { "a mapping without error" } else { "a mapping with an error" });
    Difference::unless_equal("squared error by pnmremap", ours, theirs)
}

/// The raster of an accepted picture.
fn read(bench: &mut Bench, input: &[u8]) -> Result<Vec<u8>, Difference> {
    let seen = bench.compare(&Picture { input: input.to_vec() }, library::picture, Model::picture)?;
    Difference::unless_equal("refusal of Netpbm's picture", seen.refusal, 0)?;
    let place = seen.longs("offset, width, height, raster")[3] as usize;
    Ok(input[place..].to_vec())
}

/// The table of a raster.
fn counted(bench: &mut Bench, raster: &[u8]) -> Result<Table, Difference> {
    let room = raster.len() / 3;
    let table = Table { record: Record::default(), keys: vec![0; room], weights: vec![0; room] };
    let seen = bench.compare(&Add { table, strip: raster.to_vec() }, library::add, Model::add)?;
    Ok(Table::left_by(&seen))
}

/// A table's used entries, key and weight.
fn entries(table: &Table) -> Vec<(u32, u32)> {
    table.keys.iter().copied().zip(table.weights.iter().copied()).take(table.used()).collect()
}

/// The lines of ppmhist (R, G, B, luminosity, pixels) as keys and weights, by rising key.
fn listed(lines: &[u8]) -> Vec<(u32, u32)> {
    let text = String::from_utf8_lossy(lines);
    let entry = |line: &str| {
        let fields: Vec<u32> = line.split_whitespace().filter_map(|field| field.parse().ok()).collect();
        (65536 * fields[0] + 256 * fields[1] + fields[2], fields[4])
    };
    let mut listed: Vec<(u32, u32)> = text.lines().map(entry).collect();
    listed.sort_unstable();
    listed
}

/// The palette of a run's groups.
fn palette_of(bench: &mut Bench, table: Table, count: usize) -> Result<Vec<u8>, Difference> {
    let members = vec![0; table.used()];
    let ask = Run { table, count, limit: 0, members, totals: vec![0; USUAL_LIMIT] };
    let run = bench.compare(&ask, library::run, Model::run)?;
    let (coordinates, members) = (run.words("shades")[..3 * count].to_vec(), run.words("members").to_vec());
    let ask = PaletteFromGroups { table: ask.table, coordinates, members, fixed: 0, palette: vec![0; 3 * count] };
    let seen = bench.compare(&ask, library::palette_from_groups, Model::palette_from_groups)?;
    Ok(seen.bytes("palette").to_vec())
}

/// The sum of squared differences of two rasters.
fn squared_error(one: &[u8], other: &[u8]) -> u64 {
    one.iter().zip(other).map(|(&a, &b)| u64::from(a.abs_diff(b)).pow(2)).sum()
}
