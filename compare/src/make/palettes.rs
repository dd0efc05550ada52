//! Palettes: no two entries equal, or with twins of every kind.
use super::colours::colour;
use super::shades;
use crate::chance::Chance;

/// A palette of some levels by chance. In most of them no two entries are equal.
pub fn palette(chance: &mut Chance, levels: &[u8]) -> Vec<u8> {
    let count = shades::count(chance);
    let mut entries = distinct(chance, levels, count);
    if chance.one_in(8) {
        make_twins(chance, &mut entries);
    }
    entries.concat()
}

/// So many entries of some levels, no two of them equal. Few levels make few colours: in place of one that is there
/// already stands one of all levels.
pub fn distinct(chance: &mut Chance, levels: &[u8], count: usize) -> Vec<[u8; 3]> {
    let all: Vec<u8> = (0..=255).collect();
    let mut entries = Vec::with_capacity(count);
    for _ in 0..count {
        let mut entry = colour(chance, levels);
        while entries.contains(&entry) {
            entry = colour(chance, &all);
        }
        entries.push(entry);
    }
    entries
}

/// Makes some of these entries equal: two of them, several pairs, one of them three times and more, or all. A single
/// entry has no twin.
pub fn make_twins(chance: &mut Chance, entries: &mut [[u8; 3]]) {
    let last = entries.len() - 1;
    if last == 0 {
        return;
    }
    let many = chance.between(2, 6);
    match chance.below(8) {
        0 => entries[last] = entries[0],
        1 => entries[last] = entries[last - 1],
        2 => entries[last] = entries[chance.below(last)],
        3 => entries[1 + chance.below(last)] = entries[0],
        4 => twice(chance, entries, 1),
        5 | 6 => twice(chance, entries, many),
        _ => entries.fill(entries[0]),
    }
}

/// Puts some entry in place of the next one or of any, so many times.
fn twice(chance: &mut Chance, entries: &mut [[u8; 3]], times: usize) {
    for _ in 0..times {
        let (from, any) = (chance.below(entries.len()), chance.below(entries.len()));
        let to = chance.one_of(&[from + 1, any]).min(entries.len() - 1);
        entries[to] = entries[from];
    }
}

/// The entries of a palette, each of them once.
pub fn each_once(palette: &[u8]) -> Vec<u8> {
    let mut entries: Vec<&[u8]> = Vec::new();
    for entry in palette.chunks(3) {
        if !entries.contains(&entry) {
            entries.push(entry);
        }
    }
    entries.concat()
}
