//! Jobs of mapping, the test for twins, and the reading of a header.
use super::ACCEPTED;
use crate::forms::twins::{hashed, pairwise, Twins};
use crate::forms::{blocks, cells, header};
use crate::pictures::Picture;
use crate::race::{race, row, timed, Pace};
use kohlenfloh::{calls, Refusal};
use std::hint::black_box;

/// A mapper: strip, palette, index picture; the errors of R, G and B.
type Mapper = fn(&[u8], &[u8], &mut [u8]) -> [u64; 3];

/// Maps a strip into an index picture of its own by the proved library.
pub fn proved(strip: &[u8], palette: &[u8], index: &mut [u8]) -> [u64; 3] {
    calls::map_strip(strip, palette, index, 0).expect(ACCEPTED).channel_errors
}

/// The twins of a palette by the proved library, which maps an empty strip to it.
pub fn proved_twins(palette: &[u8]) -> Twins {
    match calls::map_strip(&[], palette, &mut [], 0) {
        Err(Refusal::TwinShade { lower, higher }) => Some((lower, higher)),
        answer => answer.map(|_| None).expect(ACCEPTED),
    }
}

/// Reads a picture by the proved library: width, height and the raster's bytes.
pub fn proved_reading(input: &[u8]) -> [u64; 3] {
    let picture = calls::read_picture(input).expect(ACCEPTED);
    [picture.width() as u64, picture.height() as u64, picture.raster().len() as u64]
}

/// Mapping a picture as one strip.
pub fn whole(pace: Pace, picture: &Picture, palette: &[u8]) {
    let pixels = picture.pixels();
    let mut lent = [vec![1u8; pixels], vec![1u8; pixels], vec![1u8; pixels]];
    let [first, second, third] = &mut lent;
    let mapped = |map: Mapper, index: &mut Vec<u8>| {
        let (seconds, errors) = timed(|| map(&picture.raster, palette, index));
        (seconds, (errors, index.clone()))
    };
    let times = race(
        pace,
        "mapping",
        &mut [&mut || mapped(proved, first), &mut || mapped(blocks::map, second), &mut || mapped(cells::map, third)],
    );
    row(&format!("mapping, k = {}", palette.len() / 3), &picture.name, ("pixel", pixels as f64), &times, "cells");
}

/// How often a short job is done in a turn.
const TIMES: usize = 10_000;

/// Does a short job so often: the seconds, and what it gives at last.
fn many<A>(job: &dyn Fn() -> A) -> (f64, A) {
    timed(|| {
        (1..TIMES).for_each(|_| drop(black_box(job())));
        job()
    })
}

/// Looking for twins where there are none, so that every entry is looked at. A palette with twins is tried beforehand.
pub fn twins(pace: Pace, picture: &Picture, palette: &[u8]) {
    let mut equal = palette.to_vec();
    equal.copy_within(..3, palette.len() - 3);
    let last = palette.len() / 3 - 1;
    for form in [proved_twins, pairwise, hashed] {
        assert_eq!(form(&equal), Some((0, last)), "twins: others are found");
    }
    let each = |form: fn(&[u8]) -> Twins| many(&|| form(black_box(palette)));
    let times = race(pace, "twins", &mut [&mut || each(proved_twins), &mut || each(pairwise), &mut || each(hashed)]);
    row(&format!("test for twins, k = {}", last + 1), &picture.name, ("call", TIMES as f64), &times, "hashed keys");
}

/// Reading a picture's header. The form reads comments too, though none is timed here.
pub fn read(pace: Pace, picture: &Picture) {
    let file = picture.file();
    let commented = [b"P6# a comment\r", &file[3..]].concat();
    assert_eq!(header::picture(&commented), Some(proved_reading(&commented)), "header: a comment is read otherwise");
    let mut proved = || many(&|| proved_reading(black_box(&file)));
    let mut usual = || many(&|| header::picture(black_box(&file)).expect(ACCEPTED));
    let times = race(pace, "header", &mut [&mut proved, &mut usual]);
    row("P6 header", &picture.name, ("picture", TIMES as f64), &times, "");
}
