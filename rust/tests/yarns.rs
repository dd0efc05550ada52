//! How many shades to ask for: what the help advises, tried on drawings of known yarns.
use kohlenfloh::{RunOptions, Table};

/// Numbers that look drawn by lot, the same in every run.
struct Lot(u64);

impl Lot {
    /// A number below a bound.
    fn below(&mut self, bound: u64) -> u64 {
        self.0 = self.0.wrapping_mul(6_364_136_223_846_793_005).wrapping_add(1_442_695_040_888_963_407);
        (self.0 >> 33) % bound
    }
}

/// The colours of so many yarns, and a drawing of them: each yarn covers some pixels, and each pixel is uneven by a few
/// levels, as in a scan.
fn drawing(lot: &mut Lot, yarns: usize) -> (Vec<u8>, Vec<u8>) {
    const UNEVEN: u64 = 2;
    let colours: Vec<u8> = (0..3 * yarns).map(|_| lot.below(256) as u8).collect();
    let mut raster = Vec::new();
    for yarn in colours.chunks(3) {
        for _ in 0..50 + lot.below(1000) {
            let levels = yarn.iter().map(|level| u64::from(*level) + lot.below(2 * UNEVEN + 1));
            raster.extend(levels.map(|level| level.saturating_sub(UNEVEN).min(255) as u8));
        }
    }
    (colours, raster)
}

/// How many shades the yarns have, where so many are asked for: fewer than the yarns where two share one.
fn shades_of(colours: &[u8], table: &Table, count: usize) -> usize {
    let run = table.run(RunOptions::shades(count)).unwrap();
    let palette = table.palette_from_groups(&run.shades, &run.members).unwrap();
    palette.map(colours).unwrap().pixels().iter().filter(|pixels| **pixels > 0).count()
}

#[test]
fn one_shade_more_than_yarns_loses_no_yarn() {
    let mut lot = Lot(7);
    let (mut lost, mut lost_of_one_more) = (0, 0);
    for _ in 0..300 {
        let yarns = 3 + lot.below(10) as usize;
        let (colours, raster) = drawing(&mut lot, yarns);
        let mut table = Table::with_room(raster.len() / 3);
        table.add(&raster).unwrap();
        lost += usize::from(shades_of(&colours, &table, yarns) < yarns);
        lost_of_one_more += usize::from(shades_of(&colours, &table, yarns + 1) < yarns);
    }
    assert_eq!((lost, lost_of_one_more), (135, 0));
}
