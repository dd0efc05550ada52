//! Shades fixed from stock, as they are typed: six hexadecimal digits each, RRGGBB, with commas between them.
use std::ffi::OsStr;
use std::fmt;

use kohlenfloh::RunOptions;

/// The fixed shades of a command line, in their order, each in whole levels R, G, B. They print as they can be typed.
#[derive(Default)]
pub struct Stock(Vec<[u8; 3]>);

impl Stock {
    /// Reads fixed shades, one at least and no more than a run can have; or tells what is wrong with them, in words
    /// that go on from the option's name.
    pub fn read(text: &OsStr) -> Result<Stock, String> {
        let wrong = |what: String| format!("wants shades of six hexadecimal digits, as 1e3059,71473f, and {what}");
        let text = text.to_string_lossy();
        if text.is_empty() {
            return Err(wrong("none is given".into()));
        }
        // Those before a wrong entry have six digits and a comma each.
        let place = |before| format!("entry {}, at character {},", before + 1, 7 * before + 1);
        let entry = |(before, entry)| levels(entry).map_err(|what| wrong(format!("{} {what}", place(before))));
        let shades: Vec<[u8; 3]> = text.split(',').enumerate().map(entry).collect::<Result<_, _>>()?;
        match shades.len() {
            count if count > RunOptions::MOST_FIXED => {
                Err(format!("takes {} shades at most, and {count} are given", RunOptions::MOST_FIXED))
            }
            _ => Ok(Stock(shades)),
        }
    }

    /// The levels of each shade; no shade where none is fixed.
    pub fn shades(&self) -> &[[u8; 3]] {
        &self.0
    }
}

/// The levels of one shade, or what is wrong with it.
fn levels(entry: &str) -> Result<[u8; 3], String> {
    if entry.is_empty() {
        return Err("is empty".into());
    }
    if let Some(other) = entry.chars().find(|character| !character.is_ascii_hexdigit()) {
        return Err(format!("is {entry}, and {other:?} is no such digit"));
    }
    match u32::from_str_radix(entry, 16) {
        Ok(key) if entry.len() == 6 => {
            let [_, red, green, blue] = key.to_be_bytes();
            Ok([red, green, blue])
        }
        _ => Err(format!("is {entry}, which has {}", entry.len())),
    }
}

impl fmt::Display for Stock {
    fn fmt(&self, to: &mut fmt::Formatter<'_>) -> fmt::Result {
        let shades: Vec<String> =
            self.0.iter().map(|[red, green, blue]| format!("{red:02x}{green:02x}{blue:02x}")).collect();
        to.write_str(&shades.join(","))
    }
}

#[cfg(test)]
mod tests {
    use super::Stock;

    #[test]
    fn shades_are_read_in_either_case_and_print_as_they_can_be_typed() {
        for (typed, shades, printed) in [
            ("1e3059", vec![[30, 48, 89]], "1e3059"),
            ("1E3059,71473f", vec![[30, 48, 89], [113, 71, 63]], "1e3059,71473f"),
            ("000000,FFFFFF,000000", vec![[0; 3], [255; 3], [0; 3]], "000000,ffffff,000000"),
        ] {
            let stock = Stock::read(typed.as_ref()).unwrap_or_else(|why| panic!("{why}"));
            assert_eq!((stock.shades(), stock.to_string().as_str()), (&shades[..], printed));
        }
        assert!(Stock::default().shades().is_empty());
    }

    #[test]
    fn as_many_are_read_as_a_run_can_have() {
        let typed = |count: usize| vec!["0000ff"; count].join(",");
        assert_eq!(Stock::read(typed(63).as_ref()).map(|stock| stock.shades().len()), Ok(63));
        for count in [64, 65, 1000] {
            let why = Stock::read(typed(count).as_ref()).err();
            assert_eq!(why, Some(format!("takes 63 shades at most, and {count} are given")));
        }
    }
}
