//! Twins, two equal entries of a palette: mapping refuses them by their numbers, and nothing else does.
use kohlenfloh::{calls, Palette, Refusal, RunOptions, Shades, Table};

/// The refusals of a mapping in their order; the twins are those of [`with_faults`].
const ORDER: [Refusal; 5] = [
    Refusal::BadStrip,
    Refusal::BadPalette,
    Refusal::TwinShade { lower: 0, higher: 1 },
    Refusal::ManyPixels,
    Refusal::ShortRoom,
];

/// So many entries, no two of them equal.
fn entries(count: usize) -> Vec<[u8; 3]> {
    (0..count).map(|number| [number, number / 4, 7 * number].map(|level| level as u8)).collect()
}

/// The twins by which a palette of these entries is refused, or none where it is accepted.
fn twins(entries: &[[u8; 3]]) -> Option<(usize, usize)> {
    match calls::map_strip(&[], entries.as_flattened(), &mut [], 0) {
        Ok(_) => None,
        Err(Refusal::TwinShade { lower, higher }) => Some((lower, higher)),
        Err(other) => panic!("{other}"),
    }
}

/// Five pixels of close colours.
const FIVE: [u8; 15] = [0, 1, 0, 1, 1, 2, 1, 2, 1, 1, 2, 2, 2, 0, 1];

#[test]
fn any_two_entries_may_be_the_twins() {
    for count in [1, 2, 3, 17, 63, 64] {
        let entries = entries(count);
        assert_eq!(twins(&entries), None, "{count} entries");
        for higher in 0..count {
            for lower in 0..higher {
                let mut equal = entries.clone();
                equal[higher] = equal[lower];
                assert_eq!(twins(&equal), Some((lower, higher)), "{count} entries");
            }
        }
    }
}

#[test]
fn of_several_pairs_the_one_with_the_smallest_higher_number_is_told() {
    let [a, b, c, d] = [[0, 0, 1], [0, 1, 0], [1, 0, 0], [1, 1, 1]];
    for (entries, pair) in [
        (vec![a, b, b, a], (1, 2)),
        (vec![a, b, a, b], (0, 2)),
        (vec![a, a, a], (0, 1)),
        (vec![a, b, a, a, b], (0, 2)),
        (vec![a, b, c, d, c, b, a], (2, 4)),
        (vec![a, b, c, d, a, d], (0, 4)),
        (vec![b; 64], (0, 1)),
    ] {
        assert_eq!(twins(&entries), Some(pair), "{entries:?}");
    }
}

#[test]
fn entries_that_differ_in_one_level_are_no_twins() {
    for channel in 0..3 {
        for (level, other) in [(0, 1), (254, 255), (0, 255), (127, 128), (16, 32)] {
            let (mut one, mut two) = ([9; 3], [9; 3]);
            (one[channel], two[channel]) = (level, other);
            assert_eq!(twins(&[one, two]), None, "{level} and {other} in channel {channel}");
        }
    }
    assert_eq!(twins(&[[1, 2, 3], [3, 2, 1], [2, 3, 1], [1, 3, 2], [3, 1, 2], [2, 1, 3]]), None);
}

/// A mapping in which these of the refusals hold, its strip from the bytes that are lent: its refusal, and the index
/// bytes.
fn with_faults(bytes: &[u8], faults: [bool; 5]) -> (Option<Refusal>, Vec<u8>) {
    let [strip, palette, twins, pixels, room] = faults;
    let strip_bytes = if pixels { 3 * (Palette::MOST_PIXELS + 1) } else { 6 } + usize::from(strip);
    let mut entries = vec![5, 5, 5, 5, 5, if twins { 5 } else { 6 }];
    entries.extend(palette.then_some(5));
    let mut index = vec![9; if pixels { Palette::MOST_PIXELS + 1 } else { 2 }];
    let first = usize::from(room);
    (calls::map_strip(&bytes[..strip_bytes], &entries, &mut index, first).err(), index)
}

#[test]
fn the_refusal_is_the_first_of_those_that_hold_and_writes_nothing() {
    let bytes = vec![5; 3 * (Palette::MOST_PIXELS + 1) + 1];
    for case in 0..32 {
        let faults = [1, 2, 4, 8, 16].map(|bit| case & bit != 0);
        let due = ORDER.into_iter().zip(faults).find(|(_, holds)| *holds).map(|(refusal, _)| refusal);
        let (refusal, index) = with_faults(&bytes, faults);
        assert_eq!(refusal, due, "{faults:?}");
        assert!(index.iter().all(|byte| *byte == if due.is_some() { 9 } else { 0 }), "{faults:?}");
    }
}

#[test]
fn a_palette_holds_twins_and_tells_of_them() {
    let bytes = [1, 2, 3, 4, 5, 6, 1, 2, 3, 4, 5, 6];
    let palette = Palette::from_bytes(&bytes).unwrap();
    assert_eq!((palette.count(), palette.bytes()), (4, bytes.as_slice()));
    assert_eq!(palette.twins(), Some((0, 2)));
    let refusal = Refusal::TwinShade { lower: 0, higher: 2 };
    let mut index = [9; 3];
    for strip in [[].as_slice(), &[1, 2, 3], &[7; 9]] {
        assert_eq!(palette.map(strip), Err(refusal));
        for first in [0, 1, 3, 4, usize::MAX] {
            assert_eq!(palette.map_into(strip, &mut index, first), Err(refusal));
        }
    }
    assert_eq!(index, [9; 3]);
    assert_eq!(Palette::from_bytes(&bytes[..6]).unwrap().twins(), None);
    assert_eq!(Palette::from_bytes(&bytes[..3]).unwrap().twins(), None);
    assert_eq!(Palette::from_bytes(&bytes[..8]), Err(Refusal::BadPalette));
    assert_eq!(Palette::from_bytes(&[7; 192]).unwrap().twins(), Some((0, 1)));
}

#[test]
fn two_shades_of_a_run_come_out_equal_by_both_palettes() {
    let mut table = Table::with_room(5);
    table.add(&FIVE).unwrap();
    let run = table.run(RunOptions::shades(4)).unwrap();
    let from_groups = table.palette_from_groups(&run.shades, &run.members).unwrap();
    for palette in [run.shades.palette().unwrap(), from_groups] {
        assert_eq!(palette.bytes(), [1, 2, 2, 0, 1, 0, 2, 0, 1, 1, 2, 2]);
        assert_eq!(palette.twins(), Some((0, 3)));
        assert_eq!(palette.map(&FIVE), Err(Refusal::TwinShade { lower: 0, higher: 3 }));
    }
    for (count, error) in [(1, 8), (2, 6), (3, 2), (5, 0)] {
        let run = table.run(RunOptions::shades(count)).unwrap();
        let palette = table.palette_from_groups(&run.shades, &run.members).unwrap();
        assert_eq!(palette.twins(), None, "{count} shades");
        assert_eq!(palette.map(&FIVE).unwrap().figures.error, error, "{count} shades");
    }
}

#[test]
fn rounds_and_palettes_take_equal_shades() {
    let mut table = Table::with_room(5);
    table.add(&FIVE).unwrap();
    let mut shades = Shades::from_coordinates(&[16; 6]).unwrap();
    assert_eq!(shades.palette().unwrap().twins(), Some((0, 1)));
    let mut members = [1; 5];
    assert_eq!(table.palette_from_groups(&shades, &members).unwrap().bytes(), [1; 6]);
    assert!(table.short_round(&mut shades.clone(), &mut members.clone()).is_ok());
    assert!(table.plain_round(&mut shades, &mut members).is_ok());
    assert_eq!(members, [0; 5]);
}
