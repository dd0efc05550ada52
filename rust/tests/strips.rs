//! Strips: however a picture is cut, the table, the run and the index picture are the same; in several threads too.
use std::thread::Builder;

use kohlenfloh::{Palette, Run, RunOptions, Table};

/// A raster of so many pixels with uneven colours, the same at every call.
fn raster_of(pixels: usize) -> Vec<u8> {
    (0..3 * pixels).map(|place| ((place * place * 2654 + place * 977) >> 7) as u8 & 0xfc).collect()
}

/// The table of a raster that is added in strips of so many pixels.
fn table_in_strips(raster: &[u8], pixels: usize) -> Table {
    let mut table = Table::with_room(raster.len() / 3);
    for strip in raster.chunks(3 * pixels) {
        assert_eq!(table.add(strip), Ok(strip.len() as u64 / 3));
    }
    table
}

/// The index picture and summed error of a raster that is mapped in strips of so many pixels.
fn mapped_in_strips(palette: &Palette, raster: &[u8], pixels: usize) -> (Vec<u8>, u64) {
    let mut index = vec![255; raster.len() / 3];
    let mut error = 0;
    for (number, strip) in raster.chunks(3 * pixels).enumerate() {
        error += palette.map_into(strip, &mut index, number * pixels).unwrap().error;
    }
    (index, error)
}

/// The run that the tests below compare.
fn run_of(raster: &[u8]) -> Run {
    table_in_strips(raster, raster.len()).run(RunOptions::shades(17).limit(40)).unwrap()
}

/// The palette of that run.
fn palette_of(raster: &[u8]) -> Palette {
    let (table, run) = (table_in_strips(raster, raster.len()), run_of(raster));
    table.palette_from_groups(&run.shades, &run.members).unwrap()
}

#[test]
fn a_table_in_strips_equals_the_whole() {
    let raster = raster_of(20_000);
    let whole = table_in_strips(&raster, 20_000);
    assert!(whole.used() > 5000, "the raster has few colours: {}", whole.used());
    for pixels in [777, 4096, 19_999] {
        let table = table_in_strips(&raster, pixels);
        assert_eq!(table.record(), whole.record());
        assert!(table.entries().eq(whole.entries()));
        assert_eq!(
            table.run(RunOptions::shades(17).limit(40)).unwrap(),
            whole.run(RunOptions::shades(17).limit(40)).unwrap()
        );
    }
}

#[test]
fn the_sums_are_those_of_the_pixels_however_they_are_cut() {
    let raster = raster_of(20_000);
    let sum = |channel: usize| raster.iter().skip(channel).step_by(3).map(|level| u64::from(*level)).sum();
    let sums: [u64; 3] = [sum(0), sum(1), sum(2)];
    for pixels in [1000, 4096, 20_000] {
        let record = table_in_strips(&raster, pixels).record();
        assert_eq!([record.red, record.green, record.blue], sums, "strips of {pixels}");
    }
}

#[test]
fn a_mapping_in_strips_equals_the_whole() {
    let raster = raster_of(20_000);
    let palette = palette_of(&raster);
    let whole = palette.map(&raster).unwrap();
    for pixels in [1, 777, 4096, 19_999] {
        let (index, error) = mapped_in_strips(&palette, &raster, pixels);
        assert!(index == whole.index, "strips of {pixels}");
        assert_eq!(error, whole.figures.error);
    }
    assert_eq!(whole.figures.mean, Some(whole.figures.error as f64 / 20_000.0));
    assert_eq!(whole.figures.channel_errors.iter().sum::<u64>(), whole.figures.error);
}

#[test]
fn a_stored_table_is_the_table() {
    let table = table_in_strips(&raster_of(5000), 5000);
    let stored = Table::from_parts(table.record(), table.keys().to_vec(), table.weights().to_vec()).unwrap();
    let without_sums = Table::from_entries(table.keys().to_vec(), table.weights().to_vec()).unwrap();
    assert_eq!((stored.room(), without_sums.room()), (table.used(), table.used()));
    assert_eq!((stored.record(), without_sums.record()), (table.record(), table.record()));
    assert_eq!(stored.run(RunOptions::shades(9)), table.run(RunOptions::shades(9)));
    assert_eq!(without_sums.run(RunOptions::shades(9)), table.run(RunOptions::shades(9)));
}

#[test]
fn a_palette_maps_its_own_bytes_without_error() {
    let palette = palette_of(&raster_of(5000));
    let mapped = palette.map(palette.bytes()).unwrap();
    assert_eq!(mapped.figures.error, 0);
    assert!(mapped.index.into_iter().map(|number| palette.entry(number.into()).unwrap()).eq(palette.entries()));
}

#[test]
fn threads_with_little_stack_get_the_same_run() {
    let raster = raster_of(20_000);
    let alone = run_of(&raster);
    std::thread::scope(|scope| {
        let little = || Builder::new().stack_size(1024 * 1024);
        let threads = [(); 4].map(|()| little().spawn_scoped(scope, || run_of(&raster)).unwrap());
        for thread in threads {
            assert_eq!(thread.join().unwrap(), alone);
        }
    });
}
