//! The same jobs in plain Rust, in lent slices and local arrays under a mebibyte, with the same tests of their input.
//!
//! `table` with `is_table` and `merge::walk`, `rounds`, `run`, `palette::plain`, `blocks`, `twins::pairwise` and
//! `header` are the usual forms: the proved library's methods without what it does for long tables, small ones, pixels
//! that equal the one before, and colours that stay in their group. `is_table_packed`, `merge::leap`, `first`,
//! `onward`, `palette::packed`, `cells` and `twins::hashed` are other methods that give the same answers, and on some
//! pictures sooner. Rounds, runs and palettes test their table by `is_table_packed`, mappings their palette by
//! `twins::pairwise`.
#![allow(unsafe_code)]
pub mod blocks;
pub mod cells;
pub mod first;
pub mod groups;
pub mod header;
pub mod merge;
pub mod onward;
pub mod palette;
pub mod rounds;
pub mod run;
pub mod runs;
pub mod table;
pub mod twins;

/// Three coordinates, in sixteenths or in levels.
pub type Point = [i32; 3];

/// The key of the pixel with these three bytes.
#[inline(always)]
pub fn key_of(pixel: &[u8]) -> u32 {
    65536 * pixel[0] as u32 + 256 * pixel[1] as u32 + pixel[2] as u32
}

/// Where a colour stands, in sixteenths.
#[inline(always)]
pub fn colour_of(key: u32) -> Point {
    [16 * (key >> 16 & 255) as i32, 16 * (key >> 8 & 255) as i32, 16 * (key & 255) as i32]
}

/// The sum of three squared differences.
#[inline(always)]
pub fn distance(a: Point, b: Point) -> u32 {
    let (r, g, b) = (a[0] - b[0], a[1] - b[1], a[2] - b[2]);
    (r * r + g * g + b * b) as u32
}

/// The value at a place, unchecked, as in proved code.
///
/// # Safety
/// The place is in the slice.
#[inline(always)]
pub unsafe fn at(slice: &[u32], place: usize) -> u32 {
    debug_assert!(place < slice.len());
    // SAFETY: the caller says that the place is in the slice.
    unsafe { *slice.get_unchecked(place) }
}

/// Sets the value at a place, unchecked, as in proved code.
///
/// # Safety
/// The place is in the slice.
#[inline(always)]
pub unsafe fn put(slice: &mut [u32], place: usize, value: u32) {
    debug_assert!(place < slice.len());
    // SAFETY: the caller says that the place is in the slice.
    unsafe { *slice.get_unchecked_mut(place) = value }
}
