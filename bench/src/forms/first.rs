//! The shortened round by another method, for rounds in which most colours are far from their former shade, as in a
//! run's first: every shade is looked at in blocks, and the distances are counted by halving in the sorted row.
use super::groups::{Groups, Shades};
use super::rounds::{rows_of, search_block};
use super::{colour_of, distance};

/// The shortened round on good input.
pub fn group_counted(keys: &[u32], weights: &[u32], shades: &Shades, members: &mut [u32]) -> (Groups, u64) {
    let mut groups = Groups::new();
    let rows = rows_of(shades);
    let mut best = [0; 256];
    let mut distances = 0;
    for ((keys, weights), members) in keys.chunks(256).zip(weights.chunks(256)).zip(members.chunks_mut(256)) {
        search_block(keys, shades, &mut best);
        for (((key, weight), member), best) in keys.iter().zip(weights).zip(members).zip(&best) {
            let former = (*member & 63) as usize;
            let near = distance(colour_of(*key), shades.at[former]);
            let row = &rows[former][1..shades.count];
            distances += 1 + row.partition_point(|packed| packed >> 6 <= 4 * near) as u64;
            *member = groups.join(*key, *weight, *best);
        }
    }
    (groups, distances)
}
