//! The palette from groups: the sums of each group, and a division for each level.
use super::groups::{Groups, Shades};
use super::table;
use kohlenfloh::Record;

/// What a palette is made from: a table, the shades' coordinates, and the members.
#[derive(Clone, Copy)]
pub struct Lent<'a> {
    pub record: Record,
    pub keys: &'a [u32],
    pub weights: &'a [u32],
    pub coordinates: &'a [u32],
    pub members: &'a [u32],
}

/// Tests what is lent: the used keys, weights and members.
fn tested<'a>(lent: Lent<'a>, palette: &[u8]) -> (&'a [u32], &'a [u32], &'a [u32]) {
    assert!(table::is_table_packed(lent.record, lent.keys, lent.weights), "bad table");
    let count = Shades::of(lent.coordinates).count;
    let used = lent.record.used as usize;
    assert!(lent.members.len() >= used && palette.len() >= 3 * count, "short room");
    let members = &lent.members[..used];
    assert!(members.iter().all(|member| (*member as usize) < count), "bad member");
    (&lent.keys[..used], &lent.weights[..used], members)
}

/// The level nearest to the mean of so many pixels, halves up.
pub fn level_of(sum: u64, pixels: u64) -> u8 {
    ((2 * sum + pixels) / (2 * pixels)) as u8
}

/// Writes each shade's levels: those of its group, or of its coordinates where it has none.
fn write(coordinates: &[u32], palette: &mut [u8], levels: impl Fn(usize) -> Option<[u8; 3]>) {
    for (number, (shade, bytes)) in coordinates.chunks_exact(3).zip(palette.chunks_exact_mut(3)).enumerate() {
        let alone = || [shade[0], shade[1], shade[2]].map(|coordinate| ((coordinate + 8) / 16) as u8);
        bytes.copy_from_slice(&levels(number).unwrap_or_else(alone));
    }
}

/// The palette by four sums for each group: the weight, and weight times level of R, G and B.
pub fn plain(lent: Lent, palette: &mut [u8]) {
    let (keys, weights, members) = tested(lent, palette);
    let mut groups = [[0u64; 4]; 64];
    for ((key, weight), member) in keys.iter().zip(weights).zip(members) {
        let (key, weight) = (*key as u64, *weight as u64);
        let sums = &mut groups[*member as usize];
        sums[0] += weight;
        sums[1] += weight * (key >> 16);
        sums[2] += weight * (key >> 8 & 255);
        sums[3] += weight * (key & 255);
    }
    write(lent.coordinates, palette, |number| {
        let [pixels, red, green, blue] = groups[number];
        (pixels > 0).then(|| [red, green, blue].map(|sum| level_of(sum, pixels)))
    });
}

/// The palette by two sums for each group, as rounds keep them.
pub fn packed(lent: Lent, palette: &mut [u8]) {
    let (keys, weights, members) = tested(lent, palette);
    let mut groups = Groups::new();
    for ((key, weight), member) in keys.iter().zip(weights).zip(members) {
        groups.join(*key, *weight, *member);
    }
    write(lent.coordinates, palette, |number| groups.levels(number));
}
