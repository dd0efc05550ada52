//! The way from a picture to its index picture, strip by strip.
use kohlenfloh::{Palette, Picture, Run, RunOptions, Table};

use crate::digits::grouped;
use crate::failure::Failure;
use crate::in_use::{self, Failed};
use crate::meaning::Case;
use crate::options::{Options, Wanted};
use crate::progress::Progress;
use crate::twins::palette_of;

/// The most bytes of a strip. A strip is as many whole rows as fit, and the longest row has 48 KiB. Each add tests the
/// whole table, so strips are long; they are short enough that progress shows.
const STRIP_BYTES: usize = 4 * 1024 * 1024;

/// All that was found of a picture.
pub struct Work<'a> {
    /// The picture.
    pub picture: Picture<'a>,
    /// How many colours it has.
    pub colours: usize,
    /// Its average colour.
    pub average: [u8; 3],
    /// The run that found its shades.
    pub run: Run,
    /// The shades in whole levels.
    pub palette: Palette,
    /// The number of each pixel's shade.
    pub index: Vec<u8>,
    /// The mapping's error.
    pub error: u64,
}

/// Finds the shades of a picture and maps it to them. The name is the one that a refusal tells.
pub fn find_shades<'a>(name: &str, input: &'a [u8], options: &Options) -> Result<Work<'a>, Failure> {
    let mut table = Table::with_room(Table::MOST_ENTRIES);
    make(&mut table, input, options).map_err(|failed| match failed {
        Failed::Refused(refusal) => {
            let case = Case { input, options, table: &table };
            Failure::Refused { name: name.into(), refusal, meaning: case.meaning(refusal) }
        }
        Failed::Twins(twins) => {
            Failure::Refused { name: name.into(), refusal: twins.refusal(), meaning: twins.to_string() }
        }
        Failed::Unmet(unmet) => Failure::Unmet { name: name.into(), unmet },
    })
}

/// Picture, table, run, palette and mapping, as far as the library accepts them.
fn make<'a>(table: &mut Table, input: &'a [u8], options: &Options) -> Result<Work<'a>, Failed> {
    let progress = Progress::start();
    let picture = Picture::read(input)?;
    let strip_pixels = picture.width() * (STRIP_BYTES / (3 * picture.width()));
    let strips = picture.raster().chunks(3 * strip_pixels);
    for (number, strip) in strips.clone().enumerate() {
        progress.part("adding pixels", number, strips.len());
        table.add(strip)?;
    }
    let average = table.average().expect("a picture has a pixel");
    let run = run_of(table, options, &progress)?;
    let palette = palette_of(table, &run)?;
    let mut index = vec![0; picture.pixels()];
    let mut error = 0;
    for (number, strip) in strips.clone().enumerate() {
        progress.part("mapping pixels", number, strips.len());
        error += palette.map_into(strip, &mut index, number * strip_pixels)?.error;
    }
    Ok(Work { picture, colours: table.used(), average, run, palette, index, error })
}

/// The run that is wanted, by its rule and with its fixed shades: one of so many shades, or the first of those whose
/// picture uses so many.
fn run_of(table: &Table, options: &Options, progress: &Progress) -> Result<Run, Failed> {
    let Options { wanted, limit, jancey, fixed, .. } = options;
    let run = |count: usize| {
        progress.say(&format!("looking for {count} shades of {} colours", grouped(table.used() as u64)));
        let asked = RunOptions::shades(count).limit(limit.value);
        match fixed.shades() {
            [] if *jancey => table.run_jancey(asked),
            [] => table.run(asked),
            shades => table.run_fixed(shades, asked),
        }
    };
    match wanted {
        Wanted::InUse(number) => in_use::find(table, number.value, fixed.shades().len(), run),
        Wanted::Count(number) => Ok(run(number.value)?),
    }
}
