//! Inputs of the listing program: a count line and a picture, good, damaged, and at the bounds of length and rounds.
use super::colours::{levels, strip};
use super::header::{damaged, Way};
use crate::ask::Run;
use crate::chance::Chance;
use crate::model::listing::MOST_INPUT;
use crate::model::Model;

/// A count line, a plain header of these sides, and a raster.
fn input(count: &str, sides: (usize, usize), raster: &[u8]) -> Vec<u8> {
    let mut input = format!("{count}\nP6\n{} {}\n255\n", sides.0, sides.1).into_bytes();
    input.extend_from_slice(raster);
    input
}

/// The same, by chance: small sides, few levels, mostly a good count.
fn by_chance(chance: &mut Chance) -> Vec<u8> {
    let count = match chance.below(12) {
        0 => chance.one_of(&["", "0", "00", "65", "99", "2 ", " 2", "002", "2\r", "x"]).to_string(),
        1 => chance.between(10, 64).to_string(),
        _ => chance.between(1, 9).to_string(),
    };
    let sides = match chance.below(10) {
        0 => chance.one_of(&[(0, 1), (1, 0), (16_385, 1), (91, 91), (1, 8193), (4097, 4097)]),
        _ => (chance.between(1, 9), chance.between(1, 9)),
    };
    let levels = levels(chance);
    let pixels = (sides.0 * sides.1).min(100);
    let raster = strip(chance, &levels, pixels);
    let mut made = input(&count, sides, &raster);
    if chance.one_in(5) {
        let place = chance.below(made.len().min(20));
        let byte = chance.one_of(b" \n\x0b#059P");
        let way = chance.one_of(&[Way::Replaced(byte), Way::Before(byte), Way::Doubled, Way::Removed, Way::Cut]);
        made = damaged(&made, place, way);
    }
    if chance.one_in(12) {
        made.push(0);
    }
    made
}

/// The first picture by chance of so many pixels a side whose run with this count does not settle.
fn unsettled(count: usize, side: usize) -> Vec<u8> {
    let by_case = |case| {
        let raster = Chance::of_case(7, case).bytes(3 * side * side);
        input(&count.to_string(), (side, side), &raster)
    };
    let stays = |input: &Vec<u8>| {
        let mut model = Model::default();
        model.listing(input, None);
        model.met.contains_key("not settled")
    };
    (0..).map(by_case).find(stays).expect("some run stays unsettled")
}

/// The first picture by chance of 300 pixels whose run of eight shades settles in its thirtieth round, where it may.
pub fn settling_in_thirty() -> Vec<u8> {
    let settles = |raster: &Vec<u8>| {
        let mut model = Model::default();
        let table = model.table_of(raster).expect("300 pixels have room");
        let ran = model.run(&Run { table, count: 8, limit: 200, members: vec![0; 300], totals: vec![0; 200] });
        ran.longs("rounds, settled, distances, final total")[..2] == [30, 1]
    };
    let raster = (0..).map(|case| Chance::of_case(13, case).bytes(3 * 300)).find(settles);
    input("8", (20, 15), &raster.expect("some run settles in its thirtieth round"))
}

/// An input of so many bytes: a count line, and a picture of one pixel behind many white bytes.
fn long(count: &str, bytes: usize) -> Vec<u8> {
    let short = input(count, (1, 1), b"abc");
    let place = count.len() + 3;
    let blanks = vec![b' '; bytes - short.len()];
    [&short[..place], &blanks, &short[place..]].concat()
}

/// Sheet H: 17 pixels (10,0,0) and 15 of (11,0,0), listed as one shade.
pub fn sheet_h() -> Vec<u8> {
    input("1", (32, 1), &[[10, 0, 0].repeat(17), [11, 0, 0].repeat(15)].concat())
}

/// Five pixels of close colours, listed as so many shades. Of four, shades 0 and 3 both come to (1,2,2).
pub fn five_pixels(count: usize) -> Vec<u8> {
    input(&count.to_string(), (5, 1), &[0, 1, 0, 1, 1, 2, 1, 2, 1, 1, 2, 2, 2, 0, 1])
}

/// The first picture by chance of 20 pixels whose run of ten shades leaves twins.
pub fn ten_shades_with_twins() -> Vec<u8> {
    let by_case = |case| input("10", (5, 4), &strip(&mut Chance::of_case(17, case), &[70, 71, 72], 20));
    let refused = |input: &Vec<u8>| Model::default().listing(input, None) == b"refused 18\n";
    (0..).map(by_case).find(refused).expect("some run leaves twins")
}

/// The inputs that are stored: the scope's example first; twins, sheet H, and the run that would go on to a thirtieth
/// round, last.
pub fn inputs() -> Vec<Vec<u8>> {
    let example = input("2", (2, 2), &[0, 0, 0, 0, 0, 0, 0, 0, 0, 10, 0, 0]);
    let long_and_malformed = long("2x", MOST_INPUT + 1);
    let mut inputs =
        vec![example, unsettled(9, 24), unsettled(16, 20), long_and_malformed, long("1", MOST_INPUT + 1), Vec::new()];
    inputs.extend((0..300).map(|case| by_chance(&mut Chance::of_case(11, case))));
    inputs.extend([3, 4, 5].map(five_pixels));
    inputs.push(ten_shades_with_twins());
    inputs.push(sheet_h());
    inputs.push(settling_in_thirty());
    inputs
}

/// Inputs as the program takes them: before each its length in five digits, and LF.
pub fn stored(inputs: &[Vec<u8>]) -> Vec<u8> {
    let one = |input: &Vec<u8>| [format!("{:05}\n", input.len()).into_bytes(), input.clone()].concat();
    inputs.iter().flat_map(one).collect()
}
