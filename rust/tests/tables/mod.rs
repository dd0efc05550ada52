//! Tables for the tests of runs.
#![allow(dead_code, reason = "each file of tests uses a part of this")]
use kohlenfloh::Table;

/// The table of some colours, each with its pixels.
pub fn table_of(colours: &[([u8; 3], u32)]) -> Table {
    let key = |[red, green, blue]: [u8; 3]| u32::from_be_bytes([0, red, green, blue]);
    table_of_entries(&colours.iter().map(|(levels, pixels)| (key(*levels), *pixels)).collect::<Vec<_>>())
}

/// The table of these entries, each a key and a weight.
pub fn table_of_entries(entries: &[(u32, u32)]) -> Table {
    let (keys, weights) = entries.iter().copied().unzip();
    Table::from_entries(keys, weights).unwrap()
}

/// The table of some levels R, each with its pixels; G and B are 0.
pub fn reds(levels: &[(u8, u32)]) -> Table {
    table_of(&levels.iter().map(|(red, pixels)| ([*red, 0, 0], *pixels)).collect::<Vec<_>>())
}

/// Tables of up to 300 colours that look random.
pub fn tables() -> impl Iterator<Item = Table> {
    (1..=300_u64).map(|seed| {
        let mut table = Table::with_room(300);
        let level = |n: u64| (n * n / 7 % (1 + seed * 13 % 256)) as u8;
        table.add(&(0..3 * seed).map(|place| level(place * seed + 5 * place)).collect::<Vec<u8>>()).unwrap();
        table
    })
}
