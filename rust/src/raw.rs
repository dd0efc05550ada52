//! The functions as they cross the boundary, and the places of their arrays, as `include/kohlenfloh.h` declares them.
//!
//! Each function answers 0 or the refusal's number. A slice is a pointer and its length; a fixed array is one pointer,
//! and its places have the names below. What a call may write must not overlap anything else it is handed. The rest of
//! this crate is a safe face over these.

/// The most coordinates that can be lent, and so the length of a run's shades.
pub const KF_MOST_COORDINATES: usize = 192;

/// In a record: used entries of the table.
pub const KF_RECORD_USED: usize = 0;
/// In a record: its pixels, the sum of the used weights.
pub const KF_RECORD_PIXELS: usize = 1;
/// In a record: the sum of weight times level R over the used entries.
pub const KF_RECORD_RED: usize = 2;
/// In a record: that of G.
pub const KF_RECORD_GREEN: usize = 3;
/// In a record: that of B.
pub const KF_RECORD_BLUE: usize = 4;
/// The places of a record.
pub const KF_RECORD_PLACES: usize = 5;

/// In the answer of a round: its total, against the shades before the move.
pub const KF_ROUND_TOTAL: usize = 0;
/// In the answer of a round: how many shades moved.
pub const KF_ROUND_MOVED: usize = 1;
/// In the answer of a round: how many distances were worked out.
pub const KF_ROUND_DISTANCES: usize = 2;
/// The places of the answer of a round.
pub const KF_ROUND_PLACES: usize = 3;

/// In the answer of a run: rounds made.
pub const KF_RUN_ROUNDS: usize = 0;
/// In the answer of a run: 1 if the last round moved no shade, 0 if it moved one.
pub const KF_RUN_SETTLED: usize = 1;
/// In the answer of a run: the distances worked out in all rounds.
pub const KF_RUN_DISTANCES: usize = 2;
/// In the answer of a run: the final total.
pub const KF_RUN_TOTAL: usize = 3;
/// The places of the answer of a run.
pub const KF_RUN_PLACES: usize = 4;

/// In the answer of a mapping: the error.
pub const KF_MAP_STRIP_ERROR: usize = 0;
/// In the answer of a mapping: the error of R.
pub const KF_MAP_STRIP_RED_ERROR: usize = 1;
/// In the answer of a mapping: the error of G.
pub const KF_MAP_STRIP_GREEN_ERROR: usize = 2;
/// In the answer of a mapping: the error of B.
pub const KF_MAP_STRIP_BLUE_ERROR: usize = 3;
/// In the answer of a mapping: 1 where there is a mean, 0 for no pixels.
pub const KF_MAP_STRIP_HAS_MEAN: usize = 4;
/// In the answer of a mapping: after TWIN SHADE the lower number of two equal entries, 0 elsewhere.
pub const KF_MAP_STRIP_LOWER: usize = 5;
/// In the answer of a mapping: after TWIN SHADE the higher number, 0 elsewhere.
pub const KF_MAP_STRIP_HIGHER: usize = 6;
/// The places of the answer of a mapping.
pub const KF_MAP_STRIP_PLACES: usize = 7;

/// In the means of a mapping: the mean square error.
pub const KF_MAP_STRIP_MEAN: usize = 0;
/// In the means of a mapping: that of R.
pub const KF_MAP_STRIP_RED_MEAN: usize = 1;
/// In the means of a mapping: that of G.
pub const KF_MAP_STRIP_GREEN_MEAN: usize = 2;
/// In the means of a mapping: that of B.
pub const KF_MAP_STRIP_BLUE_MEAN: usize = 3;
/// The places of the means of a mapping.
pub const KF_MAP_STRIP_MEAN_PLACES: usize = 4;

/// In the answer of a reading: after BAD HEADER the offset of the byte at fault, 0 elsewhere.
pub const KF_READ_PICTURE_OFFSET: usize = 0;
/// In the answer of a reading: pixels in a row.
pub const KF_READ_PICTURE_WIDTH: usize = 1;
/// In the answer of a reading: rows.
pub const KF_READ_PICTURE_HEIGHT: usize = 2;
/// In the answer of a reading: the place at which the raster begins.
pub const KF_READ_PICTURE_RASTER: usize = 3;
/// The places of the answer of a reading.
pub const KF_READ_PICTURE_PLACES: usize = 4;

extern "C" {
    /// Adds a strip's pixels. The record is as it is then; `taken` is the pixels taken.
    pub fn kf_add_strip(
        record: *mut [u64; KF_RECORD_PLACES],
        keys: *mut u32,
        keys_len: usize,
        weights: *mut u32,
        weights_len: usize,
        strip: *const u8,
        strip_len: usize,
        taken: *mut [u64; 1],
    ) -> u32;

    /// One round in which each colour looks at every shade.
    pub fn kf_plain_round(
        record: *const [u64; KF_RECORD_PLACES],
        keys: *const u32,
        keys_len: usize,
        weights: *const u32,
        weights_len: usize,
        coordinates: *mut u32,
        coordinates_len: usize,
        members: *mut u32,
        members_len: usize,
        answer: *mut [u64; KF_ROUND_PLACES],
    ) -> u32;

    /// The same round by the shortened search.
    pub fn kf_short_round(
        record: *const [u64; KF_RECORD_PLACES],
        keys: *const u32,
        keys_len: usize,
        weights: *const u32,
        weights_len: usize,
        coordinates: *mut u32,
        coordinates_len: usize,
        members: *mut u32,
        members_len: usize,
        answer: *mut [u64; KF_ROUND_PLACES],
    ) -> u32;

    /// The run. `shades` receives three coordinates a shade, zeros past the count.
    pub fn kf_run(
        record: *const [u64; KF_RECORD_PLACES],
        keys: *const u32,
        keys_len: usize,
        weights: *const u32,
        weights_len: usize,
        count: usize,
        limit: usize,
        members: *mut u32,
        members_len: usize,
        totals: *mut u64,
        totals_len: usize,
        shades: *mut [u32; KF_MOST_COORDINATES],
        answer: *mut [u64; KF_RUN_PLACES],
    ) -> u32;

    /// The run by Jancey's rule, which reads and writes what the run does.
    pub fn kf_run_jancey(
        record: *const [u64; KF_RECORD_PLACES],
        keys: *const u32,
        keys_len: usize,
        weights: *const u32,
        weights_len: usize,
        count: usize,
        limit: usize,
        members: *mut u32,
        members_len: usize,
        totals: *mut u64,
        totals_len: usize,
        shades: *mut [u32; KF_MOST_COORDINATES],
        answer: *mut [u64; KF_RUN_PLACES],
    ) -> u32;

    /// The run with fixed shades, three bytes each; besides them it reads and writes what the run does.
    pub fn kf_run_fixed(
        record: *const [u64; KF_RECORD_PLACES],
        keys: *const u32,
        keys_len: usize,
        weights: *const u32,
        weights_len: usize,
        fixed: *const u8,
        fixed_len: usize,
        count: usize,
        limit: usize,
        members: *mut u32,
        members_len: usize,
        totals: *mut u64,
        totals_len: usize,
        shades: *mut [u32; KF_MOST_COORDINATES],
        answer: *mut [u64; KF_RUN_PLACES],
    ) -> u32;

    /// The palette of some shades, three bytes each.
    pub fn kf_palette_from_shades(
        coordinates: *const u32,
        coordinates_len: usize,
        palette: *mut u8,
        palette_len: usize,
    ) -> u32;

    /// The palette of a run, three bytes a shade, each rounded once from the shade's group.
    pub fn kf_palette_from_groups(
        record: *const [u64; KF_RECORD_PLACES],
        keys: *const u32,
        keys_len: usize,
        weights: *const u32,
        weights_len: usize,
        coordinates: *const u32,
        coordinates_len: usize,
        members: *const u32,
        members_len: usize,
        palette: *mut u8,
        palette_len: usize,
    ) -> u32;

    /// The palette of a run, three bytes a shade: the first `fixed` shades from their coordinates, the others rounded
    /// once from their groups.
    pub fn kf_palette_from_groups_fixed(
        record: *const [u64; KF_RECORD_PLACES],
        keys: *const u32,
        keys_len: usize,
        weights: *const u32,
        weights_len: usize,
        coordinates: *const u32,
        coordinates_len: usize,
        members: *const u32,
        members_len: usize,
        fixed: usize,
        palette: *mut u8,
        palette_len: usize,
    ) -> u32;

    /// Maps a strip into its stretch of the index picture.
    pub fn kf_map_strip(
        strip: *const u8,
        strip_len: usize,
        palette: *const u8,
        palette_len: usize,
        index: *mut u8,
        index_len: usize,
        first: usize,
        answer: *mut [u64; KF_MAP_STRIP_PLACES],
        means: *mut [f64; KF_MAP_STRIP_MEAN_PLACES],
    ) -> u32;

    /// Reads a P6 picture.
    pub fn kf_read_picture(input: *const u8, input_len: usize, answer: *mut [u64; KF_READ_PICTURE_PLACES]) -> u32;
}
