//! Fixed shades in bytes, good and damaged.
use crate::chance::Chance;
use crate::model::MOST_SHADES;

/// So many fixed shades: colours of a table by their keys, near to these, or any; or all kinds. At times some are
/// equal.
pub fn fixed(chance: &mut Chance, keys: &[u32], count: usize) -> Vec<u8> {
    let kind = chance.below(4);
    let mut shades: Vec<[u8; 3]> = Vec::with_capacity(count);
    for _ in 0..count {
        let kind = if kind == 3 { chance.below(3) } else { kind };
        let shade = match kind {
            _ if keys.is_empty() || kind == 2 => [0; 3].map(|_| chance.long() as u8),
            0 => levels_of(chance.one_of(keys)),
            _ => levels_of(chance.one_of(keys))
                .map(|level| level.saturating_add(3).saturating_sub(chance.below(7) as u8)),
        };
        let again = !shades.is_empty() && chance.one_in(12);
        shades.push(if again { chance.one_of(&shades) } else { shade });
    }
    shades.concat()
}

/// R, G and B of a key.
pub fn levels_of(key: u32) -> [u8; 3] {
    let [_, red, green, blue] = key.to_be_bytes();
    [red, green, blue]
}

/// How many shades are fixed: mostly few, at times any number up to 63.
pub fn count(chance: &mut Chance) -> usize {
    match chance.below(10) {
        0..=6 => chance.between(1, 4),
        7..=8 => chance.between(5, 20),
        _ => chance.one_of(&[31, 32, 62, MOST_SHADES - 1]),
    }
}

/// Damages a list of fixed shades: its length is none that a list may have.
pub fn damage(chance: &mut Chance, fixed: &mut Vec<u8>) {
    let length: usize = chance.one_of(&[0, 0, 1, 2, 4, 5, 7, 188, 190, 191, 192, 193, 195, 198]);
    let more = chance.bytes(length.saturating_sub(fixed.len()));
    fixed.extend(more);
    fixed.truncate(length);
}
