//! The palette from groups: each level rounded once, from the exact mean of a shade's group; and its refusals.
mod tables;

use kohlenfloh::{calls, Record, Refusal, RunOptions, Shades, Table};
use tables::table_of_entries;

/// The refusals in their order, SHORT ROOM by members and by palette bytes.
const ORDER: [Refusal; 6] = [
    Refusal::BadTable,
    Refusal::BadCount,
    Refusal::BadCentre,
    Refusal::ShortRoom,
    Refusal::ShortRoom,
    Refusal::BadMember,
];

/// The palette that is made of a table, coordinates and members, in so many bytes of 9.
fn made(table: &Table, coordinates: &[u32], members: &[u32], bytes: usize) -> (Result<(), Refusal>, Vec<u8>) {
    let mut palette = vec![9; bytes];
    let (record, keys, weights) = (table.record(), table.keys(), table.weights());
    (calls::palette_from_groups(record, keys, weights, coordinates, members, &mut palette), palette)
}

/// The palette of three pixels (0,0,255) in shade 0 and two of (1,2,3) in shade 1, where these of the refusals hold.
fn with_faults(faults: [bool; 6]) -> (Result<(), Refusal>, Vec<u8>) {
    let [table, count, centre, members, bytes, member] = faults;
    let record = Record::new(2, 5 + u64::from(table), [2, 4, 771]);
    let mut coordinates = vec![0, 0, 0, 16, 16, 16];
    coordinates.extend(count.then_some(0));
    coordinates[4] += 4065 * u32::from(centre);
    let lent = [2 * u32::from(member), 1];
    let mut palette = vec![9; 7 - 2 * usize::from(bytes)];
    let lent = &lent[..2 - usize::from(members)];
    let answer = calls::palette_from_groups(record, &[255, 66_051], &[3, 2], &coordinates, lent, &mut palette);
    (answer, palette)
}

#[test]
fn the_refusal_is_the_first_of_those_that_hold_and_writes_nothing() {
    for case in 0..64 {
        let faults = [1, 2, 4, 8, 16, 32].map(|bit| case & bit != 0);
        let first = ORDER.into_iter().zip(faults).find(|(_, holds)| *holds);
        let due = match first {
            Some((refusal, _)) => (Err(refusal), vec![9; 7 - 2 * usize::from(faults[4])]),
            None => (Ok(()), vec![0, 0, 255, 1, 2, 3, 9]),
        };
        assert_eq!(with_faults(faults), due, "{faults:?}");
    }
}

#[test]
fn shades_are_1_to_64_by_whole_triples() {
    let table = table_of_entries(&[(0, 1)]);
    for length in [0, 1, 2, 4, 5, 191, 193, 194, 195, 198] {
        let answer = made(&table, &vec![0; length], &[0], 200);
        assert_eq!(answer, (Err(Refusal::BadCount), vec![9; 200]), "{length} coordinates");
    }
    for length in [3, 6, 189, 192] {
        let due = [vec![0; length], vec![9; 200 - length]].concat();
        assert_eq!(made(&table, &vec![0; length], &[0], 200), (Ok(()), due), "{length} coordinates");
        assert_eq!(made(&table, &vec![0; length], &[0], length).0, Ok(()));
        assert_eq!(made(&table, &vec![0; length], &[0], length - 1).0, Err(Refusal::ShortRoom));
    }
}

#[test]
fn a_coordinate_above_4080_is_refused_where_its_shade_has_a_group_too() {
    let table = table_of_entries(&[(0, 1), (255, 1)]);
    for place in 0..9 {
        for coordinate in [4081, 4096, 1 << 31, u32::MAX] {
            let mut coordinates = [4080; 9];
            assert_eq!(made(&table, &coordinates, &[0, 2], 9).1, [0, 0, 0, 255, 255, 255, 0, 0, 255]);
            coordinates[place] = coordinate;
            assert_eq!(made(&table, &coordinates, &[0, 2], 9), (Err(Refusal::BadCentre), vec![9; 9]), "{place}");
        }
    }
}

#[test]
fn members_of_the_used_entries_are_below_the_count_and_others_are_not_looked_at() {
    let table = table_of_entries(&[(0, 1), (255, 1)]);
    for member in [2, 3, 64, 1 << 31, u32::MAX] {
        assert_eq!(made(&table, &[0; 6], &[member, 0], 6), (Err(Refusal::BadMember), vec![9; 6]), "{member}");
        assert_eq!(made(&table, &[0; 6], &[0, member], 6), (Err(Refusal::BadMember), vec![9; 6]), "{member}");
        assert_eq!(made(&table, &[0; 6], &[0, 1, member], 6), (Ok(()), vec![0, 0, 0, 0, 0, 255]), "{member}");
    }
    for members in [[].as_slice(), &[0], &[u32::MAX]] {
        assert_eq!(made(&table, &[0; 6], members, 6), (Err(Refusal::ShortRoom), vec![9; 6]), "{members:?}");
    }
}

#[test]
fn members_are_taken_as_they_are() {
    let table = table_of_entries(&[(0, 1), (255, 1)]);
    let shades = Shades::from_coordinates(&[0, 0, 0, 0, 0, 4080]).unwrap();
    for (members, blues) in [([0, 1], [0, 255]), ([1, 0], [255, 0]), ([0, 0], [128, 255]), ([1, 1], [0, 128])] {
        let palette = table.palette_from_groups(&shades, &members).unwrap();
        assert_eq!(palette.bytes(), [0, 0, blues[0], 0, 0, blues[1]], "{members:?}");
    }
    assert_eq!(table.palette_from_groups(&shades, &[0]), Err(Refusal::ShortRoom));
    assert_eq!(table.palette_from_groups(&shades, &[0, 2]), Err(Refusal::BadMember));
}

#[test]
fn of_an_empty_table_every_shade_is_rounded_from_its_coordinates() {
    let coordinates = [7, 8, 23, 24, 4071, 4080];
    let table = Table::with_room(3);
    for members in [[].as_slice(), &[u32::MAX]] {
        assert_eq!(made(&table, &coordinates, members, 7), (Ok(()), vec![0, 1, 1, 2, 254, 255, 9]));
    }
    let shades = Shades::from_coordinates(&coordinates).unwrap();
    assert_eq!(table.palette_from_groups(&shades, &[]), shades.palette());
}

#[test]
fn a_mean_at_a_half_goes_up_and_one_just_below_it_down() {
    for (lower, upper, step) in [
        (1, 1, 1),
        (2, 1, 0),
        (1, 2, 1),
        (17, 15, 0),
        (16, 16, 1),
        (15, 17, 1),
        (501, 500, 0),
        (8_388_608, 8_388_608, 1),
        (8_388_609, 8_388_607, 0),
    ] {
        for level in [0, 1, 10, 127, 254] {
            for shift in [0, 8, 16] {
                let table = table_of_entries(&[(level << shift, lower), ((level + 1) << shift, upper)]);
                let palette = made(&table, &[4080, 4080, 4080], &[0, 0], 3).1;
                let told = palette.iter().fold(0, |key, byte| 256 * key + u32::from(*byte));
                assert_eq!(told, (level + step) << shift, "{lower} of {level}, {upper} of the next");
            }
        }
    }
}

#[test]
fn no_level_is_above_255_with_the_most_pixels() {
    let most = Table::MOST_PIXELS as u32;
    assert_eq!(made(&table_of_entries(&[(16_777_215, most)]), &[0; 3], &[0], 3), (Ok(()), vec![255; 3]));
    // All colours whose R is 255.
    let many: Vec<(u32, u32)> = (0xFF_0000..=0xFF_FFFF).map(|key| (key, 256)).collect();
    let table = table_of_entries(&many);
    assert_eq!(table.pixels(), Table::MOST_PIXELS);
    assert_eq!(made(&table, &[0; 6], &vec![1; many.len()], 6).1, [0, 0, 0, 255, 128, 128]);
}

/// A raster of so many pixels with uneven colours, the same at every call.
fn raster_of(pixels: usize) -> Vec<u8> {
    (0..3 * pixels).map(|place| ((place * place * 2654 + place * 977) >> 9) as u8 & 0xfe).collect()
}

/// Whether a level is nearest to the mean of so many pixels with this sum, the higher of two.
fn nearest(level: u8, sum: u64, pixels: u64) -> bool {
    let (level, double) = (2 * u64::from(level), 2 * sum);
    (level * pixels).saturating_sub(pixels) <= double && double < (level + 1) * pixels
}

#[test]
fn the_levels_of_a_run_are_nearest_to_the_means_of_its_last_groups() {
    let mut table = Table::with_room(6000);
    table.add(&raster_of(6000)).unwrap();
    let mut lower = 0;
    for (count, limit) in [(1, 0), (2, 1), (7, 3), (16, 0), (64, 1), (64, 0)] {
        let run = table.run(RunOptions::shades(count).limit(limit)).unwrap();
        let palette = table.palette_from_groups(&run.shades, &run.members).unwrap();
        let twice = run.shades.palette().unwrap();
        for (number, levels) in palette.entries().enumerate() {
            let joined = table.entries().zip(&run.members).filter(|(_, member)| **member as usize == number);
            let (mut pixels, mut sums) = (0, [0; 3]);
            for ((key, weight), _) in joined {
                pixels += u64::from(weight);
                let of_key = key.to_be_bytes();
                (0..3).for_each(|channel| sums[channel] += u64::from(weight) * u64::from(of_key[1 + channel]));
            }
            assert!((0..3).all(|channel| pixels == 0 || nearest(levels[channel], sums[channel], pixels)), "{levels:?}");
        }
        lower += palette.bytes().iter().zip(twice.bytes()).filter(|(once, twice)| once < twice).count();
    }
    assert!(lower > 0, "no level is one that rounding twice puts higher");
}
