//! The library's calls as safe functions on slices, each by the name of the call beneath it.
//!
//! These work in memory that the caller lends: they allocate nothing and copy nothing that is lent. [`Table`],
//! [`Shades`] and [`Palette`] hold such memory for a caller who wants to lend none. No call asks anything of the values
//! it is handed. A refused one changes nothing, except that [`Refusal::Full`] leaves the pixels taken so far; the
//! refusals of each are listed in the order in which they are tested.
//!
//! ```
//! use kohlenfloh::{calls, Record, RunOptions};
//!
//! # fn main() -> Result<(), kohlenfloh::Refusal> {
//! let (mut record, mut keys, mut weights) = (Record::default(), [0; 16], [0; 16]);
//! let strip = [0, 0, 0, 0, 0, 0, 0, 0, 0, 10, 0, 0];
//! assert_eq!(calls::add_strip(&mut record, &mut keys, &mut weights, &strip)?, 4);
//!
//! let (mut members, mut totals) = ([0; 16], [0; RunOptions::USUAL_LIMIT]);
//! let ran = calls::run(record, &keys, &weights, 2, 0, &mut members, &mut totals)?;
//! assert_eq!((ran.rounds, ran.settled, ran.shades[3]), (2, true, 160));
//!
//! let (mut palette, mut index) = ([0; 6], [0; 4]);
//! calls::palette_from_groups(record, &keys, &weights, &ran.shades[..6], &members, &mut palette)?;
//! assert_eq!(calls::map_strip(&strip, &palette, &mut index, 0)?.error, 0);
//! assert_eq!(index, [0, 0, 0, 1]);
//! # Ok(())
//! # }
//! ```
//!
//! [`Table`]: crate::Table
//! [`Shades`]: crate::Shades
//! [`Palette`]: crate::Palette
// This is the one file of the crate with unsafe code. A slice goes over as its pointer and length, an array as its
// pointer, and the number that comes back becomes a `Refusal`. The boundary asks two things. Every pointer must be good
// for its length: slices and arrays of Rust are, empty ones too. And what a call may write must not overlap anything
// else it is handed: such memory is borrowed exclusively here.
#![allow(unsafe_code)]
use crate::mapping::Figures;
use crate::picture::Picture;
use crate::raw::*;
use crate::refusal::{Refusal, Values, NOTHING};
use crate::rounds::Round;
use crate::table::Record;

/// What a run answers, beside what it leaves in the members and totals that are lent to it.
#[derive(Clone, Copy, Debug, PartialEq, Eq)]
#[non_exhaustive]
pub struct Ran {
    /// Three coordinates for each shade, and zeros past the last one's.
    pub shades: [u32; KF_MOST_COORDINATES],
    /// Rounds made, and so totals left.
    pub rounds: usize,
    /// Whether the last round moved no shade.
    pub settled: bool,
    /// The distances worked out in all rounds together.
    pub distances: u64,
    /// The final total: the last grouping against the final shades.
    pub total: u64,
}

/// The two ways a round looks for the nearest shade.
enum Search {
    Plain,
    Short,
}

/// The two rules by which the shades of a run move.
enum Rule {
    Lloyd,
    Jancey,
}

/// The answer to a number: 0 is done, every other one its refusal, with what it carries of these values.
#[inline]
fn answer_to(number: u32, values: Values) -> Result<(), Refusal> {
    Refusal::carrying(number, values).map_or(Ok(()), Err)
}

/// Adds a strip's pixels to the table of a record, keys and weights, and answers how many were taken: all of them.
/// Places past the used entries keep their values.
///
/// # Refusals
/// BAD STRIP; BAD TABLE; FULL, after which record and table are those of exactly the pixels taken.
#[inline]
pub fn add_strip(record: &mut Record, keys: &mut [u32], weights: &mut [u32], strip: &[u8]) -> Result<u64, Refusal> {
    let mut array = record.to_array();
    let mut taken = [0];
    // SAFETY: each pointer and length is that of a slice or array of this call, and all but the strip are exclusive.
    let number = unsafe {
        kf_add_strip(
            &mut array,
            keys.as_mut_ptr(),
            keys.len(),
            weights.as_mut_ptr(),
            weights.len(),
            strip.as_ptr(),
            strip.len(),
            &mut taken,
        )
    };
    *record = Record::from_array(array);
    answer_to(number, [taken[0], 0]).map(|()| taken[0])
}

/// One round in which each colour looks at every shade. The shades move in their coordinates, and the number of each
/// used entry's shade is left in the members; those past the used entries stay.
///
/// # Refusals
/// BAD TABLE, BAD COUNT, BAD CENTRE, SHORT ROOM.
#[inline]
pub fn plain_round(
    record: Record,
    keys: &[u32],
    weights: &[u32],
    coordinates: &mut [u32],
    members: &mut [u32],
) -> Result<Round, Refusal> {
    round(Search::Plain, record, keys, weights, coordinates, members)
}

/// The same round by the shortened search, from the former shades in the members.
///
/// # Refusals
/// BAD TABLE, BAD COUNT, BAD CENTRE, SHORT ROOM, BAD MEMBER.
#[inline]
pub fn short_round(
    record: Record,
    keys: &[u32],
    weights: &[u32],
    coordinates: &mut [u32],
    members: &mut [u32],
) -> Result<Round, Refusal> {
    round(Search::Short, record, keys, weights, coordinates, members)
}

/// One round by either search.
#[inline]
fn round(
    search: Search,
    record: Record,
    keys: &[u32],
    weights: &[u32],
    coordinates: &mut [u32],
    members: &mut [u32],
) -> Result<Round, Refusal> {
    let call = match search {
        Search::Plain => kf_plain_round,
        Search::Short => kf_short_round,
    };
    let mut answer = [0; KF_ROUND_PLACES];
    // SAFETY: each pointer and length is that of a slice or array of this call; coordinates, members and answer are
    // exclusive.
    let number = unsafe {
        call(
            &record.to_array(),
            keys.as_ptr(),
            keys.len(),
            weights.as_ptr(),
            weights.len(),
            coordinates.as_mut_ptr(),
            coordinates.len(),
            members.as_mut_ptr(),
            members.len(),
            &mut answer,
        )
    };
    answer_to(number, NOTHING).map(|()| Round {
        total: answer[KF_ROUND_TOTAL],
        moved: answer[KF_ROUND_MOVED],
        distances: answer[KF_ROUND_DISTANCES],
    })
}

/// A run: starting shades, then shortened rounds to the first that moves no shade or to the limit; a limit of 0 means
/// 100, and as many totals, so that a caller who lends fewer names a limit. The last grouping is left in the members,
/// and each round's total in the totals; places past those filled stay.
///
/// # Refusals
/// BAD TABLE, BAD COUNT, FEW COLOURS, BAD LIMIT, SHORT ROOM.
#[inline]
pub fn run(
    record: Record,
    keys: &[u32],
    weights: &[u32],
    count: usize,
    limit: usize,
    members: &mut [u32],
    totals: &mut [u64],
) -> Result<Ran, Refusal> {
    run_by(Rule::Lloyd, (record, keys, weights), count, limit, members, totals)
}

/// A run by Jancey's rule, like [`run`] in everything but where a shade with a group moves: nine fifths of the way to
/// the mean of its group. [`Table::run_jancey`](crate::Table::run_jancey) says what that is to the sixteenth, and what
/// is promised of it.
///
/// ```
/// use kohlenfloh::{calls, Record, RunOptions};
///
/// # fn main() -> Result<(), kohlenfloh::Refusal> {
/// // Pixels (0,0,0) and (10,0,0), two shades: the first one starts half-way, and steps past (10,0,0) and back.
/// let (record, keys, weights) = (Record::new(2, 2, [10, 0, 0]), [0, 655_360], [1, 1]);
/// let (mut members, mut totals) = ([0; 2], [0; 3]);
/// let ran = calls::run_jancey(record, &keys, &weights, 2, 3, &mut members, &mut totals)?;
/// assert_eq!((ran.rounds, ran.settled, totals), (3, false, [6400, 4096, 2601]));
/// assert_eq!((ran.shades[0], ran.total), (201, 1681));
/// # Ok(())
/// # }
/// ```
///
/// # Refusals
/// BAD TABLE, BAD COUNT, FEW COLOURS, BAD LIMIT, SHORT ROOM.
#[inline]
pub fn run_jancey(
    record: Record,
    keys: &[u32],
    weights: &[u32],
    count: usize,
    limit: usize,
    members: &mut [u32],
    totals: &mut [u64],
) -> Result<Ran, Refusal> {
    run_by(Rule::Jancey, (record, keys, weights), count, limit, members, totals)
}

/// A run with shades fixed from stock, three bytes R, G, B each: they have the lowest numbers and never move, and the
/// other shades begin far from them. Like [`run`] in everything else;
/// [`Table::run_fixed`](crate::Table::run_fixed) says what is promised of it.
///
/// ```
/// use kohlenfloh::{calls, Record, RunOptions};
///
/// # fn main() -> Result<(), kohlenfloh::Refusal> {
/// // Three pixels (0,0,0) and one pixel (10,0,0), two shades, one of them fixed at (2,0,0).
/// let (record, keys, weights, fixed) = (Record::new(2, 4, [10, 0, 0]), [0, 655_360], [3, 1], [2, 0, 0]);
/// let (mut members, mut totals) = ([0; 2], [0; RunOptions::USUAL_LIMIT]);
/// let ran = calls::run_fixed(record, &keys, &weights, &fixed, 2, 0, &mut members, &mut totals)?;
/// assert_eq!((&ran.shades[..6], members), (&[32, 0, 0, 160, 0, 0][..], [0, 1]));
/// assert_eq!((ran.rounds, ran.settled, ran.total), (1, true, 3 * 32 * 32));
///
/// // The palette is told that one shade is fixed, which keeps its own level.
/// let mut palette = [0; 6];
/// calls::palette_from_groups_fixed(record, &keys, &weights, &ran.shades[..6], &members, 1, &mut palette)?;
/// assert_eq!(palette, [2, 0, 0, 10, 0, 0]);
/// # Ok(())
/// # }
/// ```
///
/// # Refusals
/// BAD TABLE; BAD PALETTE, for fixed bytes not 3 to 189 or not a multiple of 3, none included; BAD COUNT, also for a
/// count that is not above the number of fixed shades; FEW COLOURS, for fewer used entries unlike every fixed shade
/// than there are free shades; BAD LIMIT; SHORT ROOM.
#[inline]
#[allow(clippy::too_many_arguments, reason = "they are those of the call beneath it")]
pub fn run_fixed(
    record: Record,
    keys: &[u32],
    weights: &[u32],
    fixed: &[u8],
    count: usize,
    limit: usize,
    members: &mut [u32],
    totals: &mut [u64],
) -> Result<Ran, Refusal> {
    // SAFETY: each pointer and length is that of a slice or array of this call; members, totals, shades and answer are
    // exclusive.
    ran(|shades, answer| unsafe {
        kf_run_fixed(
            &record.to_array(),
            keys.as_ptr(),
            keys.len(),
            weights.as_ptr(),
            weights.len(),
            fixed.as_ptr(),
            fixed.len(),
            count,
            limit,
            members.as_mut_ptr(),
            members.len(),
            totals.as_mut_ptr(),
            totals.len(),
            shades,
            answer,
        )
    })
}

/// A run by either rule, on a table by its record, keys and weights.
#[inline]
fn run_by(
    rule: Rule,
    (record, keys, weights): (Record, &[u32], &[u32]),
    count: usize,
    limit: usize,
    members: &mut [u32],
    totals: &mut [u64],
) -> Result<Ran, Refusal> {
    let call = match rule {
        Rule::Lloyd => kf_run,
        Rule::Jancey => kf_run_jancey,
    };
    // SAFETY: each pointer and length is that of a slice or array of this call; members, totals, shades and answer are
    // exclusive.
    ran(|shades, answer| unsafe {
        call(
            &record.to_array(),
            keys.as_ptr(),
            keys.len(),
            weights.as_ptr(),
            weights.len(),
            count,
            limit,
            members.as_mut_ptr(),
            members.len(),
            totals.as_mut_ptr(),
            totals.len(),
            shades,
            answer,
        )
    })
}

/// What a run answers, by a call that is lent room for its shades and its answer and gives the refusal's number.
#[inline]
fn ran(call: impl FnOnce(&mut [u32; KF_MOST_COORDINATES], &mut [u64; KF_RUN_PLACES]) -> u32) -> Result<Ran, Refusal> {
    let mut shades = [0; KF_MOST_COORDINATES];
    let mut answer = [0; KF_RUN_PLACES];
    let number = call(&mut shades, &mut answer);
    answer_to(number, NOTHING).map(|()| Ran {
        shades,
        rounds: answer[KF_RUN_ROUNDS] as usize,
        settled: answer[KF_RUN_SETTLED] == 1,
        distances: answer[KF_RUN_DISTANCES],
        total: answer[KF_RUN_TOTAL],
    })
}

/// The palette of some shades, three bytes each; bytes past the last shade's stay. After a run, [`palette_from_groups`]
/// is the one to use, as it rounds once.
///
/// # Refusals
/// BAD COUNT, BAD CENTRE, SHORT ROOM.
#[inline]
pub fn palette_from_shades(coordinates: &[u32], palette: &mut [u8]) -> Result<(), Refusal> {
    // SAFETY: each pointer and length is that of a slice of this call, and the palette is exclusive.
    let number =
        unsafe { kf_palette_from_shades(coordinates.as_ptr(), coordinates.len(), palette.as_mut_ptr(), palette.len()) };
    answer_to(number, NOTHING)
}

/// The palette of a run, three bytes a shade, each the level nearest to the exact mean of the shade's group, halves up;
/// bytes past the last shade's stay. The group of a shade is the used entries whose member is its number. A shade with
/// no group is rounded from its coordinates, as by [`palette_from_shades`]. The members are taken as they are, and those
/// past the used entries are not looked at.
///
/// ```
/// use kohlenfloh::{calls, Record, RunOptions};
///
/// # fn main() -> Result<(), kohlenfloh::Refusal> {
/// // 17 pixels (10,0,0) and 15 pixels (11,0,0): the mean is 10 and 15/32.
/// let (record, keys, weights) = (Record::new(2, 32, [335, 0, 0]), [655_360, 720_896], [17, 15]);
/// let (mut members, mut totals) = ([0; 2], [0; RunOptions::USUAL_LIMIT]);
/// let ran = calls::run(record, &keys, &weights, 1, 0, &mut members, &mut totals)?;
/// assert_eq!(ran.shades[..3], [168, 0, 0]);
///
/// let mut palette = [9; 4];
/// calls::palette_from_groups(record, &keys, &weights, &ran.shades[..3], &members, &mut palette)?;
/// assert_eq!(palette, [10, 0, 0, 9]);
/// calls::palette_from_shades(&ran.shades[..3], &mut palette)?;
/// assert_eq!(palette, [11, 0, 0, 9]);
/// # Ok(())
/// # }
/// ```
///
/// # Refusals
/// BAD TABLE; BAD COUNT; BAD CENTRE, also where the shade has a group; SHORT ROOM, for members fewer than the used
/// entries or palette bytes fewer than 3 for each shade; BAD MEMBER.
#[inline]
pub fn palette_from_groups(
    record: Record,
    keys: &[u32],
    weights: &[u32],
    coordinates: &[u32],
    members: &[u32],
    palette: &mut [u8],
) -> Result<(), Refusal> {
    // SAFETY: each pointer and length is that of a slice or array of this call, and the palette is exclusive.
    let number = unsafe {
        kf_palette_from_groups(
            &record.to_array(),
            keys.as_ptr(),
            keys.len(),
            weights.as_ptr(),
            weights.len(),
            coordinates.as_ptr(),
            coordinates.len(),
            members.as_ptr(),
            members.len(),
            palette.as_mut_ptr(),
            palette.len(),
        )
    };
    answer_to(number, NOTHING)
}

/// The palette of a run with fixed shades: as by [`palette_from_groups`], but that the first shades, as many as `fixed`
/// tells, are rounded from their coordinates, as by [`palette_from_shades`], group or none: after [`run_fixed`] they
/// have their own bytes. For no fixed shade it is the palette of [`palette_from_groups`].
///
/// ```
/// use kohlenfloh::{calls, Record, RunOptions};
///
/// # fn main() -> Result<(), kohlenfloh::Refusal> {
/// // 17 pixels (10,0,0) and 15 pixels (11,0,0), beside a shade (11,0,0) from stock.
/// let (record, keys, weights) = (Record::new(2, 32, [335, 0, 0]), [655_360, 720_896], [17, 15]);
/// let (mut members, mut totals) = ([0; 2], [0; RunOptions::USUAL_LIMIT]);
/// let ran = calls::run_fixed(record, &keys, &weights, &[11, 0, 0], 2, 0, &mut members, &mut totals)?;
///
/// let mut palette = [9; 7];
/// calls::palette_from_groups_fixed(record, &keys, &weights, &ran.shades[..6], &members, 1, &mut palette)?;
/// assert_eq!(palette, [11, 0, 0, 10, 0, 0, 9]);
/// # Ok(())
/// # }
/// ```
///
/// # Refusals
/// Those of [`palette_from_groups`]; BAD COUNT also where `fixed` is not below the count.
#[inline]
pub fn palette_from_groups_fixed(
    record: Record,
    keys: &[u32],
    weights: &[u32],
    coordinates: &[u32],
    members: &[u32],
    fixed: usize,
    palette: &mut [u8],
) -> Result<(), Refusal> {
    // SAFETY: each pointer and length is that of a slice or array of this call, and the palette is exclusive.
    let number = unsafe {
        kf_palette_from_groups_fixed(
            &record.to_array(),
            keys.as_ptr(),
            keys.len(),
            weights.as_ptr(),
            weights.len(),
            coordinates.as_ptr(),
            coordinates.len(),
            members.as_ptr(),
            members.len(),
            fixed,
            palette.as_mut_ptr(),
            palette.len(),
        )
    };
    answer_to(number, NOTHING)
}

/// Maps a strip into its stretch of the index picture, which begins at place `first` and has a byte for each pixel.
/// Every other index byte stays. A palette with two equal entries is refused, with an empty strip too.
///
/// ```
/// use kohlenfloh::{calls, Refusal};
///
/// let twins = [9, 9, 9, 1, 2, 2, 0, 1, 0, 1, 2, 2];
/// let mut index = [7; 1];
/// let refusal = calls::map_strip(&[1, 2, 3], &twins, &mut index, 0).unwrap_err();
/// assert_eq!(refusal, Refusal::TwinShade { lower: 1, higher: 3 });
/// assert_eq!(refusal.to_string(), "18 TWIN SHADE, entries 1 and 3: two entries of the palette are equal");
/// assert_eq!(index, [7]);
/// assert_eq!(calls::map_strip(&[1, 2, 3], &twins[..9], &mut index, 0)?.error, 1);
/// assert_eq!(index, [1]);
/// # Ok::<(), Refusal>(())
/// ```
///
/// # Refusals
/// BAD STRIP, BAD PALETTE, TWIN SHADE, MANY PIXELS, SHORT ROOM.
#[inline]
pub fn map_strip(strip: &[u8], palette: &[u8], index: &mut [u8], first: usize) -> Result<Figures, Refusal> {
    let mut answer = [0; KF_MAP_STRIP_PLACES];
    let mut means = [0.0; KF_MAP_STRIP_MEAN_PLACES];
    // SAFETY: each pointer and length is that of a slice or array of this call; index, answer and means are exclusive.
    let number = unsafe {
        kf_map_strip(
            strip.as_ptr(),
            strip.len(),
            palette.as_ptr(),
            palette.len(),
            index.as_mut_ptr(),
            index.len(),
            first,
            &mut answer,
            &mut means,
        )
    };
    let errors = [KF_MAP_STRIP_RED_ERROR, KF_MAP_STRIP_GREEN_ERROR, KF_MAP_STRIP_BLUE_ERROR];
    let channels = [KF_MAP_STRIP_RED_MEAN, KF_MAP_STRIP_GREEN_MEAN, KF_MAP_STRIP_BLUE_MEAN];
    let twins = [answer[KF_MAP_STRIP_LOWER], answer[KF_MAP_STRIP_HIGHER]];
    answer_to(number, twins).map(|()| Figures {
        error: answer[KF_MAP_STRIP_ERROR],
        channel_errors: errors.map(|place| answer[place]),
        mean: (answer[KF_MAP_STRIP_HAS_MEAN] == 1).then_some(means[KF_MAP_STRIP_MEAN]),
        channel_means: channels.map(|place| means[place]),
    })
}

/// Reads a P6 picture, comments in its header too; its raster is a stretch of the input, uncopied.
///
/// # Refusals
/// BAD HEADER, BAD SIZE, BAD DEPTH, BAD RASTER.
#[inline]
pub fn read_picture(input: &[u8]) -> Result<Picture<'_>, Refusal> {
    let mut answer = [0; KF_READ_PICTURE_PLACES];
    // SAFETY: the pointer and length are those of the input, and the answer is exclusive.
    let number = unsafe { kf_read_picture(input.as_ptr(), input.len(), &mut answer) };
    answer_to(number, [answer[KF_READ_PICTURE_OFFSET], 0]).map(|()| Picture {
        width: answer[KF_READ_PICTURE_WIDTH] as usize,
        height: answer[KF_READ_PICTURE_HEIGHT] as usize,
        raster: &input[answer[KF_READ_PICTURE_RASTER] as usize..],
    })
}

#[cfg(test)]
mod tests {
    use super::{answer_to, Refusal};

    #[test]
    fn a_number_is_done_or_its_refusal_with_what_it_carries() {
        assert_eq!(answer_to(0, [7, 9]), Ok(()));
        assert_eq!(answer_to(1, [7, 9]), Err(Refusal::BadStrip));
        assert_eq!(answer_to(3, [7, 9]), Err(Refusal::Full { taken: 7 }));
        assert_eq!(answer_to(12, [7, 9]), Err(Refusal::BadHeader { offset: 7 }));
        assert_eq!(answer_to(18, [7, 9]), Err(Refusal::TwinShade { lower: 7, higher: 9 }));
    }

    #[test]
    fn an_unknown_number_is_an_error_and_no_panic() {
        for number in [1000, 1 << 31, u32::MAX] {
            assert_eq!(answer_to(number, [7, 9]), Err(Refusal::Unknown { number }));
        }
    }
}
