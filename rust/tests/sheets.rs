//! Sheets A to I of the scope, and the cases that stand beside them, through the safe types.
use kohlenfloh::{Palette, Picture, Record, Refusal, RunOptions, Shades, Table};

/// The raster of sheet A: pixels (0,0,0) three times and (10,0,0).
const RASTER: [u8; 12] = [0, 0, 0, 0, 0, 0, 0, 0, 0, 10, 0, 0];

/// The table of a raster.
fn table_of(raster: &[u8]) -> Table {
    let mut table = Table::with_room(16);
    assert_eq!(table.add(raster), Ok(raster.len() as u64 / 3));
    table
}

/// So many pixels of one colour after so many of another.
fn pixels_of(first: (usize, [u8; 3]), second: (usize, [u8; 3])) -> Vec<u8> {
    [first.1.repeat(first.0), second.1.repeat(second.0)].concat()
}

#[test]
fn sheet_a_the_table() {
    let table = table_of(&RASTER);
    assert_eq!(table.keys(), [0, 655_360]);
    assert_eq!(table.weights(), [3, 1]);
    assert_eq!(table.entries().collect::<Vec<_>>(), [(0, 3), (655_360, 1)]);
    assert_eq!(table.record(), Record::new(2, 4, [10, 0, 0]));
    assert_eq!(table.average(), Some([3, 0, 0]));
}

#[test]
fn sheet_b_one_shade() {
    let run = table_of(&RASTER).run(RunOptions::shades(1)).unwrap();
    assert_eq!(run.shades.coordinates(), [40, 0, 0]);
    assert_eq!(run.totals, [19_200]);
    assert_eq!((run.rounds, run.settled, run.total), (1, true, 19_200));
    assert_eq!(run.members, [0, 0]);
}

#[test]
fn sheet_c_its_palette_and_figures() {
    let table = table_of(&RASTER);
    let run = table.run(RunOptions::shades(1)).unwrap();
    let palette = table.palette_from_groups(&run.shades, &run.members).unwrap();
    assert_eq!(palette.bytes(), [3, 0, 0]);
    assert_eq!(run.shades.palette(), Ok(palette.clone()));
    let mapped = palette.map(&RASTER).unwrap();
    assert_eq!(mapped.index, [0; 4]);
    assert_eq!(mapped.figures.error, 76);
    assert_eq!(mapped.figures.channel_errors, [76, 0, 0]);
    assert_eq!(mapped.figures.mean, Some(19.0));
    assert_eq!(mapped.figures.channel_means, [19.0, 0.0, 0.0]);
}

#[test]
fn sheet_d_two_shades() {
    let table = table_of(&RASTER);
    let run = table.run(RunOptions::shades(2)).unwrap();
    assert_eq!(run.shades.coordinates(), [0, 0, 0, 160, 0, 0]);
    assert_eq!(run.totals, [4800, 0]);
    assert_eq!((run.rounds, run.settled, run.distances, run.total), (2, true, 5, 0));
    assert_eq!(run.members, [0, 1]);

    let mut shades = Shades::from_coordinates(&[40, 0, 0, 160, 0, 0]).unwrap();
    let mut members = [0, 0, 7];
    let first = table.short_round(&mut shades, &mut members).unwrap();
    assert_eq!((first.total, first.moved, first.distances), (4800, 1, 3));
    let second = table.short_round(&mut shades, &mut members).unwrap();
    assert_eq!((second.total, second.moved, second.distances), (0, 0, 2));
    assert_eq!(shades, run.shades);
    assert_eq!(members, [0, 1, 7]);
}

#[test]
fn sheet_e_limit_one() {
    let run = table_of(&RASTER).run(RunOptions::shades(2).limit(1)).unwrap();
    assert_eq!(run.totals, [4800]);
    assert_eq!((run.rounds, run.settled, run.total), (1, false, 0));
}

#[test]
fn sheet_f_equal_weights() {
    let table = table_of(&[0, 0, 0, 10, 0, 0]);
    let run = table.run(RunOptions::shades(2)).unwrap();
    assert_eq!(run.totals, [6400, 0]);
    assert_eq!(run.shades.coordinates(), [160, 0, 0, 0, 0, 0]);
}

#[test]
fn sheet_g_a_distance_of_exactly_four_times() {
    let table = table_of(&[5, 0, 0]);
    let mut shades = Shades::from_coordinates(&[0, 0, 0, 160, 0, 0]).unwrap();
    let mut members = [1];
    let round = table.short_round(&mut shades, &mut members).unwrap();
    assert_eq!(members, [0]);
    assert_eq!(round.distances, 2);
}

#[test]
fn sheet_h_a_mean_that_is_rounded_twice_and_once() {
    let raster = pixels_of((17, [10, 0, 0]), (15, [11, 0, 0]));
    let table = table_of(&raster);
    let run = table.run(RunOptions::shades(1)).unwrap();
    assert_eq!(run.shades.shade(0), Some([168, 0, 0]));
    let twice = run.shades.palette().unwrap();
    assert_eq!(twice.entry(0), Some([11, 0, 0]));
    assert_eq!(twice.map(&raster).unwrap().figures.error, 17);
    // Once, from 335 / 32; the average is rounded so too.
    let once = table.palette_from_groups(&run.shades, &run.members).unwrap();
    assert_eq!(once.entry(0), Some([10, 0, 0]));
    assert_eq!(once.map(&raster).unwrap().figures.error, 15);
    assert_eq!(table.average(), Some([10, 0, 0]));
}

#[test]
fn an_average_goes_up_at_a_half() {
    for (first, second, average) in [(0, 1, 1), (254, 255, 255), (7, 7, 7), (0, 255, 128), (0, 0, 0), (255, 255, 255)] {
        assert_eq!(table_of(&[first, 0, 0, second, 0, 0]).average(), Some([average, 0, 0]));
        assert_eq!(table_of(&[0, 9, first, 0, 9, second]).average(), Some([0, 9, average]));
    }
    assert_eq!(table_of(&pixels_of((2, [0, 0, 0]), (1, [1, 1, 1]))).average(), Some([0; 3]));
}

#[test]
fn sheet_i_a_shade_with_no_group_stays() {
    let table = table_of(&RASTER);
    let mut shades = Shades::from_coordinates(&[0; 6]).unwrap();
    let mut members = [1, 1];
    let round = table.plain_round(&mut shades, &mut members).unwrap();
    assert_eq!(members, [0, 0]);
    assert_eq!((round.moved, round.distances), (1, 4));
    assert_eq!(shades.coordinates(), [40, 0, 0, 0, 0, 0]);
}

#[test]
fn nothing_is_a_strip_too() {
    let mut table = Table::with_room(0);
    assert_eq!(table.add(&[]), Ok(0));
    assert_eq!(table.run(RunOptions::shades(1)), Err(Refusal::FewColours));
    let mapped = Palette::from_bytes(&[1, 2, 3]).unwrap().map(&[]).unwrap();
    assert_eq!((mapped.figures.mean, mapped.figures.channel_means), (None, [0.0; 3]));
}

#[test]
fn a_picture_hands_on_its_raster_uncopied() {
    let input = [b"P6\t002\r\n2 255\n".as_slice(), &RASTER].concat();
    let picture = Picture::read(&input).unwrap();
    assert_eq!((picture.width(), picture.height(), picture.pixels()), (2, 2, 4));
    assert!(std::ptr::eq(picture.raster(), &input[14..]));
    assert_eq!(table_of(picture.raster()).weights(), [3, 1]);
}
