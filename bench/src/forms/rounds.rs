//! Single rounds: plain, in blocks of colours; and shortened, along rows of shades sorted by distance.
use super::groups::{to_mean, Groups, Shades};
use super::{colour_of, distance, table};
use kohlenfloh::Record;

/// The colours of a block.
const BLOCK: usize = 256;

/// The nearest shade of each key of a block, distance and number in one.
pub fn search_block(keys: &[u32], shades: &Shades, best: &mut [u32; BLOCK]) {
    let mut points = [[0i16; BLOCK]; 3];
    for (i, key) in keys.iter().enumerate() {
        let colour = colour_of(*key);
        for c in 0..3 {
            points[c][i] = colour[c] as i16;
        }
    }
    let best = &mut best[..keys.len()];
    best.fill(u32::MAX);
    for (number, shade) in shades.at[..shades.count].iter().enumerate() {
        let [red, green, blue] = shade.map(|c| c as i16);
        let colours = points[0].iter().zip(&points[1]).zip(&points[2]);
        for (best, ((r, g), b)) in best.iter_mut().zip(colours) {
            let [r, g, b] = [r - red, g - green, b - blue].map(|c| c as i32);
            *best = (*best).min(((r * r + g * g + b * b) as u32) * 64 + number as u32);
        }
    }
}

/// The plain round on good input: each colour looks at every shade.
pub fn group_plain(keys: &[u32], weights: &[u32], shades: &Shades, members: &mut [u32]) -> (Groups, u64) {
    let mut groups = Groups::new();
    let mut best = [0; BLOCK];
    let blocks = keys.chunks(BLOCK).zip(weights.chunks(BLOCK)).zip(members.chunks_mut(BLOCK));
    for ((keys, weights), members) in blocks {
        search_block(keys, shades, &mut best);
        for (((key, weight), member), best) in keys.iter().zip(weights).zip(members).zip(&best) {
            *member = groups.join(*key, *weight, *best);
        }
    }
    (groups, (keys.len() * shades.count) as u64)
}

/// For each shade the packed distances to all shades, rising.
pub fn rows_of(shades: &Shades) -> [[u32; 64]; 64] {
    let mut rows = [[0; 64]; 64];
    let some = &shades.at[..shades.count];
    for (row, from) in rows.iter_mut().zip(some) {
        for (number, (slot, to)) in row.iter_mut().zip(some).enumerate() {
            *slot = 64 * distance(*from, *to) + number as u32;
        }
        row[..shades.count].sort_unstable();
    }
    rows
}

/// A colour's walk along its former shade's row while the shades are near enough: distance and number of the nearest in
/// one, and the distances worked out.
#[inline(always)]
pub fn walk(key: u32, former: u32, shades: &Shades, rows: &[[u32; 64]; 64]) -> (u32, u64) {
    let colour = colour_of(key);
    let former = (former & 63) as usize;
    let near = distance(colour, shades.at[former]);
    let row = &rows[former][..shades.count];
    let mut best = 64 * near + (row[0] & 63);
    let mut worked = 1;
    for packed in &row[1..] {
        if packed >> 6 > 4 * near {
            break;
        }
        let number = packed & 63;
        best = best.min(64 * distance(colour, shades.at[number as usize]) + number);
        worked += 1;
    }
    (best, worked)
}

/// The shortened round on good input: each colour walks, and joins its group's sums.
pub fn group_short(keys: &[u32], weights: &[u32], shades: &Shades, members: &mut [u32]) -> (Groups, u64) {
    let mut groups = Groups::new();
    let rows = rows_of(shades);
    let mut distances = 0;
    for ((key, weight), member) in keys.iter().zip(weights).zip(members) {
        let (best, worked) = walk(*key, *member, shades, &rows);
        distances += worked;
        *member = groups.join(*key, *weight, best);
    }
    (groups, distances)
}

/// A grouping of good input.
pub type Grouping = fn(&[u32], &[u32], &Shades, &mut [u32]) -> (Groups, u64);

/// A single round by a grouping, with the tests of its input: total, shades moved, distances.
pub fn round(
    grouping: Grouping,
    record: Record,
    (keys, weights): (&[u32], &[u32]),
    coordinates: &mut [u32],
    members: &mut [u32],
) -> [u64; 3] {
    assert!(table::is_table_packed(record, keys, weights), "bad table");
    let mut shades = Shades::of(coordinates);
    let used = record.used as usize;
    let count = shades.count as u32;
    assert!(members.len() >= used && members[..used].iter().all(|member| *member < count), "bad member");
    let (groups, distances) = grouping(&keys[..used], &weights[..used], &shades, &mut members[..used]);
    let moved = groups.move_shades(to_mean, 0, &mut shades);
    shades.write(coordinates);
    [groups.total, moved, distances]
}
