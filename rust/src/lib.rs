//! The shades of a drawing, certain: a safe face over the proved library `libkohlenfloh.a`.
//!
//! Artwork is reduced to a few shades, the pixels of each shade are counted, and the count becomes kilos of yarn at
//! the dyer. The way there has four steps, and every step is a call of a library whose functions are proved against
//! their definitions. The whole way, on a picture of three pixels (0,0,0) and one pixel (10,0,0):
//!
//! ```
//! use kohlenfloh::{Picture, Refusal, RunOptions, Table};
//!
//! # fn main() -> Result<(), Refusal> {
//! // A P6 picture. Its raster is a stretch of the input, uncopied.
//! let input = b"P6\n2 2\n255\n\0\0\0\0\0\0\0\0\0\x0a\0\0";
//! let picture = Picture::read(input)?;
//! assert_eq!((picture.width(), picture.height()), (2, 2));
//!
//! // The table: each colour once, by its key 65536 R + 256 G + B, with its weight in pixels.
//! let mut table = Table::with_room(16);
//! assert_eq!(table.add(picture.raster())?, 4);
//! assert_eq!(table.keys(), [0, 655_360]);
//! assert_eq!(table.weights(), [3, 1]);
//!
//! // The average colour of all pixels, in whole levels, halves up.
//! assert_eq!(table.average(), Some([3, 0, 0]));
//!
//! // A run that looks for two shades, in at most as many rounds as usual, which is 100.
//! let run = table.run(RunOptions::shades(2))?;
//! assert_eq!(run.shades.coordinates(), [0, 0, 0, 160, 0, 0]);
//! assert_eq!(run.totals, [4800, 0]);
//! assert!(run.settled);
//! assert_eq!((run.rounds, run.distances, run.total), (2, 5, 0));
//!
//! // One shade is (40,0,0) in sixteenths of a level. Its palette is (3,0,0): in each channel the whole level nearest to
//! // the mean of its group, halves up.
//! let run = table.run(RunOptions::shades(1))?;
//! assert_eq!(run.shades.coordinates(), [40, 0, 0]);
//! let palette = table.palette_of(&run)?;
//! assert_eq!(palette.bytes(), [3, 0, 0]);
//!
//! // Each pixel gets the number of its nearest palette entry; the error is the sum of squared level differences.
//! let mapped = palette.map(picture.raster())?;
//! assert_eq!(mapped.index, [0, 0, 0, 0]);
//! assert_eq!(mapped.figures.error, 76);
//!
//! // The pixels of each shade are the yarn to be bought.
//! assert_eq!(mapped.pixels(), [4]);
//! # Ok(())
//! # }
//! ```
//!
//! # What may be refused
//!
//! Every input is accepted or refused by a number, and each number is a case of [`Refusal`]. The library alone judges:
//! no rule is written a second time here. A [`Table`], [`Shades`] or [`Palette`] made from a caller's own numbers is
//! handed to the library before it is given out, so what these types hold is good, and a refusal is met at the place
//! that this table names. A refused call changes nothing, except that [`Refusal::Full`] leaves the pixels taken so far.
//!
//! | Call | Refusals |
//! |---|---|
//! | [`Picture::read`] | 12 BAD HEADER, 13 BAD SIZE, 14 BAD DEPTH, 15 BAD RASTER |
//! | [`Table::add`] | 1 BAD STRIP, 3 FULL |
//! | [`Table::run`], [`Table::run_jancey`] | 4 BAD COUNT, 5 FEW COLOURS, 6 BAD LIMIT |
//! | [`Table::run_fixed`] | 10 BAD PALETTE, 4 BAD COUNT, 5 FEW COLOURS, 6 BAD LIMIT |
//! | [`Table::plain_round`] | 7 SHORT ROOM |
//! | [`Table::short_round`] | 7 SHORT ROOM, 9 BAD MEMBER |
//! | [`Table::palette_of`] | none |
//! | [`Table::palette_from_groups`] | 7 SHORT ROOM, 9 BAD MEMBER |
//! | [`Table::palette_from_groups_fixed`] | 4 BAD COUNT, 7 SHORT ROOM, 9 BAD MEMBER |
//! | [`Shades::palette`] | none |
//! | [`Palette::map`] | 1 BAD STRIP, 18 TWIN SHADE, 11 MANY PIXELS |
//! | [`Palette::map_into`] | 1 BAD STRIP, 18 TWIN SHADE, 11 MANY PIXELS, 7 SHORT ROOM |
//! | [`Table::from_parts`], [`Table::from_entries`] | 2 BAD TABLE |
//! | [`Shades::from_coordinates`] | 4 BAD COUNT, 8 BAD CENTRE |
//! | [`Palette::from_bytes`] | 10 BAD PALETTE |
//!
//! # Limits
//!
//! | Limit | Number |
//! |---|---|
//! | [`Shades::MOST`], shades of a run and entries of a palette | 64 |
//! | [`RunOptions::MOST_FIXED`], fixed shades of a run | 63 |
//! | [`RunOptions::MOST_ROUNDS`], rounds of a run | 200 |
//! | [`RunOptions::USUAL_LIMIT`], rounds where no limit is given | 100 |
//! | [`Table::MOST_ENTRIES`], colours of a table | 1,048,576 |
//! | [`Table::MOST_PIXELS`], pixels of a table | 16,777,216 |
//! | [`Palette::MOST_PIXELS`], pixels of one mapping | 16,777,216 |
//! | [`Picture::MOST_SIDE`], width or height of a picture | 16,384 |
//! | [`Picture::MOST_PIXELS`], pixels of a picture | 16,777,216 |
//!
//! # Threads and stack
//!
//! The library keeps nothing between calls, so calls in several threads do not meet. A call uses less than about 1 MiB
//! of stack, which the main thread and the threads of [`std::thread`] have by default.
//!
//! # Building
//!
//! The build proves and compiles the library with the Rattle toolchain's `rt`, below cargo's own output folder, or takes
//! the one in the folder that the environment variable `KOHLENFLOH_ARCHIVE` names. [`made`] tells what made it. With the
//! library comes a command of the same name: `cargo run --release -- shades 6 picture.ppm` prints the order sheet of a
//! picture, and `--help` tells the rest.
//!
//! # Where things are
//!
//! The crate has one file a subject. [`raw`] is the library's functions as C sees them; [`calls`] makes each a safe
//! one on slices, and alone has unsafe code; the types lend these functions memory of their own.
#![deny(missing_docs)]

pub mod calls;
pub mod made;
mod mapping;
mod palette;
mod picture;
pub mod raw;
mod refusal;
mod rounds;
mod shades;
mod table;

pub use mapping::{Figures, Mapped};
pub use palette::Palette;
pub use picture::Picture;
pub use refusal::Refusal;
pub use rounds::{Round, Run, RunOptions};
pub use shades::Shades;
pub use table::{Record, Table};
