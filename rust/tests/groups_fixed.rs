//! The palette from groups that is told how many shades are fixed, beside the one that is not; and its refusals.
mod tables;

use kohlenfloh::{calls, Record, Refusal, Shades, Table};
use tables::table_of_entries;

/// The refusals in their order, BAD COUNT by coordinates and by fixed shades, SHORT ROOM by members and by palette
/// bytes.
const ORDER: [Refusal; 7] = [
    Refusal::BadTable,
    Refusal::BadCount,
    Refusal::BadCount,
    Refusal::BadCentre,
    Refusal::ShortRoom,
    Refusal::ShortRoom,
    Refusal::BadMember,
];

/// A palette's answer, and its bytes then.
type Made = (Result<(), Refusal>, Vec<u8>);

/// The palette that is made of a table, coordinates and members, so many shades fixed, in so many bytes of 9. With none
/// fixed, it is the one of the call that is not told.
fn made(fixed: usize, table: &Table, coordinates: &[u32], members: &[u32], bytes: usize) -> Made {
    let mut palette = vec![9; bytes];
    let (record, keys, weights) = (table.record(), table.keys(), table.weights());
    let answer = calls::palette_from_groups_fixed(record, keys, weights, coordinates, members, fixed, &mut palette);
    if fixed == 0 {
        let mut other = vec![9; bytes];
        assert_eq!(calls::palette_from_groups(record, keys, weights, coordinates, members, &mut other), answer);
        assert_eq!(other, palette);
    }
    (answer, palette)
}

/// The palette of three pixels (0,0,255) in shade 0 and two of (1,2,3) in shade 1, where these of the refusals hold.
fn with_faults(faults: [bool; 7]) -> Made {
    let [table, count, fixed, centre, members, bytes, member] = faults;
    let record = Record::new(2, 5 + u64::from(table), [2, 4, 771]);
    let mut coordinates = vec![0, 0, 0, 16, 16, 16];
    coordinates.extend(count.then_some(0));
    coordinates[4] += 4065 * u32::from(centre);
    let lent = [2 * u32::from(member), 1];
    let mut palette = vec![9; 7 - 2 * usize::from(bytes)];
    let (lent, fixed) = (&lent[..2 - usize::from(members)], 2 * usize::from(fixed));
    let answer =
        calls::palette_from_groups_fixed(record, &[255, 66_051], &[3, 2], &coordinates, lent, fixed, &mut palette);
    (answer, palette)
}

#[test]
fn the_refusal_is_the_first_of_those_that_hold_and_writes_nothing() {
    for case in 0..128 {
        let faults = [1, 2, 4, 8, 16, 32, 64].map(|bit| case & bit != 0);
        let first = ORDER.into_iter().zip(faults).find(|(_, holds)| *holds);
        let due = match first {
            Some((refusal, _)) => (Err(refusal), vec![9; 7 - 2 * usize::from(faults[5])]),
            None => (Ok(()), vec![0, 0, 255, 1, 2, 3, 9]),
        };
        assert_eq!(with_faults(faults), due, "{faults:?}");
    }
}

#[test]
fn the_first_shades_are_rounded_from_their_coordinates_as_many_as_are_fixed() {
    // Shades 0 and 2 have a group, shade 1 has none.
    let (table, coordinates) = (table_of_entries(&[(0, 1), (255, 1)]), [7, 8, 24, 4071, 4072, 4080, 23, 40, 4056]);
    for (fixed, due) in [
        (0, [0, 0, 0, 254, 255, 255, 0, 0, 255]),
        (1, [0, 1, 2, 254, 255, 255, 0, 0, 255]),
        (2, [0, 1, 2, 254, 255, 255, 0, 0, 255]),
    ] {
        assert_eq!(made(fixed, &table, &coordinates, &[0, 2], 9), (Ok(()), due.to_vec()), "{fixed} fixed");
    }
    // The last shade's group is all there is.
    assert_eq!(made(2, &table, &coordinates, &[2, 2], 9).1[6..], [0, 0, 128]);
    assert_eq!(made(2, &table, &coordinates, &[0, 0], 9).1[6..], [1, 3, 254]);
}

#[test]
fn one_shade_at_least_is_free() {
    let table = table_of_entries(&[(0, 1)]);
    for shades in [1, 2, 63, 64] {
        let coordinates = vec![16; 3 * shades];
        let of = |fixed: usize| made(fixed, &table, &coordinates, &[shades as u32 - 1], 192);
        for fixed in [0, shades - 1] {
            assert_eq!(of(fixed).0, Ok(()), "{fixed} of {shades}");
            assert_eq!(of(fixed).1[3 * shades - 3..3 * shades], [0; 3], "{fixed} of {shades}");
        }
        for fixed in [shades, shades + 1, 64, 65, 1 << 8, 1 << 32, (1 << 32) + 1, usize::MAX] {
            assert_eq!(of(fixed), (Err(Refusal::BadCount), vec![9; 192]), "{fixed} of {shades}");
        }
    }
}

#[test]
fn members_are_taken_as_they_are() {
    let table = table_of_entries(&[(0, 1), (255, 1)]);
    let shades = Shades::from_coordinates(&[0, 0, 0, 0, 0, 4080]).unwrap();
    for (members, blue) in [([0, 1], 255), ([1, 0], 0), ([0, 0], 255), ([1, 1], 128)] {
        let palette = table.palette_from_groups_fixed(&shades, &members, 1).unwrap();
        assert_eq!(palette.bytes(), [0, 0, 0, 0, 0, blue], "{members:?}");
        let none = table.palette_from_groups_fixed(&shades, &members, 0);
        assert_eq!(none, table.palette_from_groups(&shades, &members), "{members:?}");
    }
    assert_eq!(table.palette_from_groups_fixed(&shades, &[0], 1), Err(Refusal::ShortRoom));
    assert_eq!(table.palette_from_groups_fixed(&shades, &[0, 2], 1), Err(Refusal::BadMember));
    assert_eq!(table.palette_from_groups_fixed(&shades, &[0, 1], 2), Err(Refusal::BadCount));
}

#[test]
fn of_an_empty_table_every_shade_is_rounded_from_its_coordinates() {
    let table = Table::with_room(0);
    let shades = Shades::from_coordinates(&[7, 8, 23, 24, 4071, 4072]).unwrap();
    for fixed in [0, 1] {
        assert_eq!(table.palette_from_groups_fixed(&shades, &[], fixed), shades.palette());
    }
}
