//! Shades in coordinates, good and damaged.
use super::colours::colour;
use crate::chance::Chance;
use crate::model::{MOST_COORDINATE, MOST_SHADES};

/// Coordinates of so many shades: on colours of the levels, half-way between them, or anywhere; twins are frequent.
pub fn coordinates(chance: &mut Chance, levels: &[u8], count: usize) -> Vec<u32> {
    let kind = chance.below(4);
    let mut coordinates = Vec::new();
    for _ in 0..count {
        let levels = colour(chance, levels).map(u32::from);
        let shade = match kind {
            0 => levels.map(|level| 16 * level),
            1 => levels.map(|level| (16 * level + chance.one_of(&[0, 8, 7, 16])).min(MOST_COORDINATE)),
            2 => levels.map(|level| 16 * level.min(254) + chance.below(17) as u32),
            _ => [0; 3].map(|_| chance.below(MOST_COORDINATE as usize + 1) as u32),
        };
        coordinates.extend(shade);
    }
    coordinates
}

/// A count of shades: mostly few, at times 64 and those below.
pub fn count(chance: &mut Chance) -> usize {
    match chance.below(10) {
        0..=5 => chance.between(1, 5),
        6..=8 => chance.between(6, 17),
        _ => chance.one_of(&[31, 32, 33, 63, MOST_SHADES]),
    }
}

/// Damages coordinates: their number, or one of them.
pub fn damage(chance: &mut Chance, coordinates: &mut Vec<u32>) {
    if chance.one_in(2) {
        let length = chance.one_of(&[0, 1, 2, 4, 5, 191, 193, 194, 195, 198]);
        coordinates.resize(length, 16);
    } else if !coordinates.is_empty() {
        let place = chance.below(coordinates.len());
        coordinates[place] = chance.one_of(&[MOST_COORDINATE + 1, u32::MAX, 1 << 31, 65536]);
    }
}
