//! Shades and colours on the grid of sixteenths: distance, rounded mean, the nearest shade.
use super::slip::Slip;
use super::{Model, MOST_COORDINATE, MOST_SHADES};
use crate::ask::Table;

/// "A shade is three coordinates in sixteenths of a level". Palette entries and pixels use it with whole levels.
pub type Point = [i64; 3];

/// A colour of the table: where it stands, and its weight.
#[derive(Clone, Copy)]
pub struct Colour {
    pub point: Point,
    pub weight: u128,
}

/// "Colour (r,g,b) stands at (16r,16g,16b)."
pub fn point_of_key(key: u32) -> Point {
    let key = i64::from(key);
    [16 * (key / 65536), 16 * (key / 256 % 256), 16 * (key % 256)]
}

/// The used colours of a good table.
pub fn colours_of(table: &Table) -> Vec<Colour> {
    let used = table.keys.iter().zip(&table.weights).take(table.used());
    used.map(|(&key, &weight)| Colour { point: point_of_key(key), weight: weight.into() }).collect()
}

/// The pixels of some colours, and the weighted sum of each coordinate.
pub fn sums_of_colours(colours: &[Colour]) -> (u128, [u128; 3]) {
    let sum = |channel: usize| colours.iter().map(|colour| colour.weight * colour.point[channel] as u128).sum();
    (colours.iter().map(|colour| colour.weight).sum(), [0, 1, 2].map(sum))
}

/// "Distance always means the sum of three squared differences".
pub fn distance(one: Point, other: Point) -> i64 {
    (0..3).map(|channel| (one[channel] - other[channel]).pow(2)).sum()
}

/// Lent coordinates, three a shade.
pub fn shades_of(coordinates: &[u32]) -> Vec<Point> {
    coordinates.chunks(3).map(|three| [three[0], three[1], three[2]].map(i64::from)).collect()
}

/// Shades as coordinates.
pub fn coordinates_of(shades: &[Point]) -> Vec<u32> {
    shades.iter().flatten().map(|&coordinate| coordinate as u32).collect()
}

/// BAD COUNT: "for a single round or a palette from shades, coordinates not 3 to 192 or not a multiple of 3"; for a
/// palette from groups too, as it "refuses as a single round does" (document 02).
pub fn bad_coordinates(coordinates: &[u32]) -> Option<&'static str> {
    match coordinates.len() {
        below if below < 3 => Some("fewer than 3 coordinates"),
        above if above > 3 * MOST_SHADES => Some("more than 192 coordinates"),
        length if length % 3 != 0 => Some("coordinates not a multiple of 3"),
        _ => None,
    }
}

/// BAD CENTRE: "a coordinate above 4080".
pub fn bad_centre(coordinates: &[u32]) -> Option<&'static str> {
    coordinates.iter().any(|&one| one > MOST_COORDINATE).then_some("a coordinate above 4080")
}

impl Model {
    /// "Rounded mean of a group of pixel count W and coordinate sum S (in sixteenths): the whole part of
    /// (2S + W) / (2W), so halves go up."
    pub fn rounded_mean(&mut self, sum: u128, pixels: u128) -> i64 {
        self.meet_if(2 * sum % (2 * pixels) == pixels, "a mean at a half");
        if self.slips(Slip::RoundsMeansDown) {
            return (sum / pixels) as i64;
        }
        ((2 * sum + pixels) / (2 * pixels)) as i64
    }

    /// The rounded mean of some colours in each coordinate, weights counted.
    pub fn mean_of(&mut self, colours: &[Colour]) -> Point {
        let (pixels, sums) = sums_of_colours(colours);
        sums.map(|sum| self.rounded_mean(sum, pixels))
    }

    /// The nearest of some numbered shades (numbers rising); "at a tie, the lowest number"..
    pub fn nearest(&mut self, point: Point, shades: &[(usize, Point)]) -> usize {
        let least = shades.iter().map(|shade| distance(point, shade.1)).min().expect("a search has a shade");
        let mut at_least = shades.iter().filter(|shade| distance(point, shade.1) == least).map(|shade| shade.0);
        let lowest = at_least.next().expect("some shade is at the least distance");
        match at_least.next_back() {
            Some(highest) => {
                self.meet("a tie");
                if self.slips(Slip::TakesTheHighestNumberAtATie) {
                    highest
                } else {
                    lowest
                }
            }
            None => lowest,
        }
    }
}
