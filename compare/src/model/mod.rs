//! A plain model of document 01 and of what document 02 changes in it, written from their sentences; these stand in
//! quotes above what does them.
//!
//! Nothing here is quick: full searches, wide sums, no packed numbers. The model notes which edge cases it meets, and
//! can be bent by one slip, to show that the comparison notices it.
pub mod fixed;
pub mod groups;
pub mod jancey;
pub mod listing;
pub mod mapping;
pub mod palette;
pub mod picture;
pub mod round;
pub mod run;
pub mod shade;
pub mod slip;
pub mod table;
pub mod twins;

use std::collections::BTreeMap;

use slip::Slip;

/// "At most 1,048,576 entries and 16,777,216 pixels."
pub const MOST_ENTRIES: u128 = 1_048_576;
pub const MOST_PIXELS: u128 = 16_777_216;
/// "a used key above 16,777,215"
pub const MOST_KEY: u32 = 16_777_215;
/// "shades not 1 to 64"
pub const MOST_SHADES: usize = 64;
/// "three coordinates in sixteenths of a level, 0 to 4080"
pub const MOST_COORDINATE: u32 = 4080;

/// The refusal numbers, by their names.
pub const BAD_STRIP: u32 = 1;
pub const BAD_TABLE: u32 = 2;
pub const FULL: u32 = 3;
pub const BAD_COUNT: u32 = 4;
pub const FEW_COLOURS: u32 = 5;
pub const BAD_LIMIT: u32 = 6;
pub const SHORT_ROOM: u32 = 7;
pub const BAD_CENTRE: u32 = 8;
pub const BAD_MEMBER: u32 = 9;
pub const BAD_PALETTE: u32 = 10;
pub const MANY_PIXELS: u32 = 11;
pub const BAD_HEADER: u32 = 12;
pub const BAD_SIZE: u32 = 13;
pub const BAD_DEPTH: u32 = 14;
pub const BAD_RASTER: u32 = 15;
pub const TWIN_SHADE: u32 = 18;

/// A refusal's number, and what holds where it does.
type Test = (u32, Option<&'static str>);

/// What two refusals are called that hold of one ask.
fn both(first: u32, second: u32) -> &'static str {
    macro_rules! at_once {
        ($(($first:literal, $second:literal))*) => {
            match (first, second) {
                $(($first, $second) => concat!($first, " and ", $second, " at once"),)*
                (BAD_COUNT, BAD_COUNT) => "two causes of 4 at once",
                (SHORT_ROOM, SHORT_ROOM) => "two causes of 7 at once",
                _ => "two refusals at once",
            }
        };
    }
    at_once! {
        (2, 4) (2, 8) (2, 7) (2, 9) (4, 8) (4, 7) (4, 9) (8, 7) (8, 9) (7, 9)
        (1, 10) (1, 18) (1, 11) (1, 7) (10, 18) (10, 11) (10, 7) (18, 11) (18, 7) (11, 7)
        (2, 10) (2, 5) (2, 6) (10, 4) (10, 5) (10, 6) (4, 5) (4, 6) (5, 6) (5, 7) (6, 7)
    }
}

/// The model: the slip it makes, if any, and how often it met each edge case.
#[derive(Default)]
pub struct Model {
    pub slip: Option<Slip>,
    pub met: BTreeMap<&'static str, u64>,
}

impl Model {
    /// Whether the model makes this slip.
    fn slips(&self, slip: Slip) -> bool {
        self.slip == Some(slip)
    }

    /// Notes an edge case.
    pub fn meet(&mut self, what: &'static str) {
        *self.met.entry(what).or_insert(0) += 1;
    }

    /// Notes an edge case where it is one.
    pub fn meet_if(&mut self, met: bool, what: &'static str) {
        if met {
            self.meet(what);
        }
    }

    /// The number of the first test that holds, and 0 where none does; what held is noted.
    fn first_of(&mut self, tests: &[Test]) -> u32 {
        for &(number, held) in tests {
            if let Some(what) = held {
                self.meet(what);
                return number;
            }
        }
        0
    }

    /// The same, and each two tests that hold at once are noted too.
    fn first_of_all(&mut self, tests: &[Test]) -> u32 {
        let held: Vec<u32> = tests.iter().filter(|test| test.1.is_some()).map(|test| test.0).collect();
        for (place, &first) in held.iter().enumerate() {
            held[place + 1..].iter().for_each(|&second| self.meet(both(first, second)));
        }
        self.first_of(tests)
    }
}

/// A reason where a condition holds.
fn when(held: bool, what: &'static str) -> Option<&'static str> {
    held.then_some(what)
}
