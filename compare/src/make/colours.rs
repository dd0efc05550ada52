//! Colours of few levels, so that ties and equal colours come up often, and strips of them.
use crate::chance::Chance;

/// Some levels to make colours of: mostly few and near to each other, at times all.
pub fn levels(chance: &mut Chance) -> Vec<u8> {
    let base = chance.below(236) as u8;
    match chance.below(9) {
        0 => vec![0, 1],
        1 => vec![base, base + 1, base + 2, base + 3],
        2 => vec![base, base + 2, base + 4],
        3 => vec![0, 128, 255],
        4 => vec![0, 10],
        5 => (0..3).map(|_| chance.long() as u8).collect(),
        6 => (base..base + 6).collect(),
        7 => (base..base + 20).collect(),
        _ => (0..=255).collect(),
    }
}

/// A colour of some levels.
pub fn colour(chance: &mut Chance, levels: &[u8]) -> [u8; 3] {
    [0; 3].map(|_| chance.one_of(levels))
}

/// A strip of so many pixels of some levels, at times with the same pixel many times in a row.
pub fn strip(chance: &mut Chance, levels: &[u8], pixels: usize) -> Vec<u8> {
    let again = chance.one_of(&[1, 1, 2, 20]);
    let mut pixel = colour(chance, levels);
    let mut strip = Vec::with_capacity(3 * pixels);
    for _ in 0..pixels {
        if chance.one_in(again) {
            pixel = colour(chance, levels);
        }
        strip.extend_from_slice(&pixel);
    }
    strip
}

/// Bytes of a strip that are no multiple of 3.
pub fn cut_strip(chance: &mut Chance, strip: &mut Vec<u8>) {
    let more = chance.between(1, 2);
    strip.extend(chance.bytes(more));
}

/// A strip's length in pixels: mostly short, at times about the sizes at which an implementation may change its way.
pub fn length(chance: &mut Chance) -> usize {
    match chance.below(40) {
        0..=19 => chance.below(12),
        20..=27 => chance.between(25, 40),
        28..=34 => chance.between(60, 200),
        35..=37 => chance.between(250, 262),
        38 => chance.between(500, 1100),
        _ => chance.between(4000, 4200),
    }
}
