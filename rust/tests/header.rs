//! The header and this crate: a name that both have stands for the same number.
use std::collections::BTreeMap;

use kohlenfloh::{made, raw, Palette, Picture, Refusal, RunOptions, Shades, Table};

/// The header.
const HEADER: &str = include_str!("../../include/kohlenfloh.h");

/// The numbers of names.
type Numbers = BTreeMap<&'static str, u64>;

/// The names of `raw` with their numbers.
macro_rules! numbers {
    ($($name:ident)*) => {
        Numbers::from([$((stringify!($name), raw::$name as u64)),*])
    };
}

/// The name and the number of a line `NAME = NUMBER` or `#define NAME NUMBER`.
fn named(line: &'static str) -> Option<(&'static str, u64)> {
    let words: Vec<&str> = line.split_whitespace().collect();
    let (name, number) = match words[..] {
        ["#define", name, number, ..] | [name, "=", number, ..] => (name, number),
        _ => return None,
    };
    Some((name, number.trim_end_matches([',', 'u']).parse().ok()?))
}

/// The names of the header's enums whose tag ends so.
fn names_of_enums(end: &str) -> Numbers {
    let enums = HEADER.split("\nenum ").skip(1).map(|from| from.split_once(" {").unwrap());
    let wanted = enums.filter(|(tag, _)| tag.ends_with(end));
    wanted.flat_map(|(_, from)| from.split_once("};").unwrap().0.lines().filter_map(named)).collect()
}

#[test]
fn places_are_those_of_the_header() {
    let places = numbers![
        KF_RECORD_USED
        KF_RECORD_PIXELS
        KF_RECORD_RED
        KF_RECORD_GREEN
        KF_RECORD_BLUE
        KF_RECORD_PLACES
        KF_ROUND_TOTAL
        KF_ROUND_MOVED
        KF_ROUND_DISTANCES
        KF_ROUND_PLACES
        KF_RUN_ROUNDS
        KF_RUN_SETTLED
        KF_RUN_DISTANCES
        KF_RUN_TOTAL
        KF_RUN_PLACES
        KF_MAP_STRIP_ERROR
        KF_MAP_STRIP_RED_ERROR
        KF_MAP_STRIP_GREEN_ERROR
        KF_MAP_STRIP_BLUE_ERROR
        KF_MAP_STRIP_HAS_MEAN
        KF_MAP_STRIP_LOWER
        KF_MAP_STRIP_HIGHER
        KF_MAP_STRIP_PLACES
        KF_MAP_STRIP_MEAN
        KF_MAP_STRIP_RED_MEAN
        KF_MAP_STRIP_GREEN_MEAN
        KF_MAP_STRIP_BLUE_MEAN
        KF_MAP_STRIP_MEAN_PLACES
        KF_READ_PICTURE_OFFSET
        KF_READ_PICTURE_WIDTH
        KF_READ_PICTURE_HEIGHT
        KF_READ_PICTURE_RASTER
        KF_READ_PICTURE_PLACES
    ];
    assert_eq!(names_of_enums("_place"), places);
}

#[test]
fn bounds_are_those_of_the_header() {
    let bounds: Numbers = HEADER.lines().filter(|line| line.starts_with("#define")).filter_map(named).collect();
    assert_eq!(bounds["KF_MOST_ENTRIES"], Table::MOST_ENTRIES as u64);
    assert_eq!(bounds["KF_MOST_PIXELS"], Table::MOST_PIXELS);
    assert_eq!(bounds["KF_MOST_PIXELS"], Picture::MOST_PIXELS as u64);
    assert_eq!(bounds["KF_MOST_PIXELS"], Palette::MOST_PIXELS as u64);
    assert_eq!(bounds["KF_MOST_SHADES"], Shades::MOST as u64);
    assert_eq!(bounds["KF_MOST_FIXED"], RunOptions::MOST_FIXED as u64);
    assert_eq!(bounds["KF_MOST_ROUNDS"], RunOptions::MOST_ROUNDS as u64);
    assert_eq!(bounds["KF_USUAL_LIMIT"], RunOptions::USUAL_LIMIT as u64);
    assert_eq!(bounds["KF_MOST_COORDINATES"], raw::KF_MOST_COORDINATES as u64);
}

/// What a function of the header returns for each case of its argument: the pieces of text up to the semicolon, joined.
fn returned_by(function: &str) -> BTreeMap<&'static str, String> {
    let body = HEADER.split_once(&format!("*{function}(")).unwrap().1.split_once("default:").unwrap().0;
    let cases = body.split("case ").skip(1).map(|case| case.split_once(':').unwrap());
    cases.map(|(name, text)| (name, text.split('"').skip(1).step_by(2).collect())).collect()
}

#[test]
fn the_version_is_that_of_the_header() {
    assert!(HEADER.contains(&format!("\n#define KF_VERSION \"{}\"\n", made::VERSION)));
}

#[test]
fn names_and_sentences_are_those_of_the_header() {
    let names = returned_by("kf_refusal_name");
    let sentences = returned_by("kf_refusal_sentence");
    assert_eq!((&*names["KF_DONE"], &*sentences["KF_DONE"]), ("DONE", "nothing is refused"));
    for (case, number) in names_of_enums("_refusal").into_iter().filter(|(_, number)| *number > 0) {
        let refusal = Refusal::from_number(number as u32).unwrap();
        assert_eq!((&*names[case], &*sentences[case]), (refusal.name(), refusal.sentence()));
    }
    let unknown = Refusal::Unknown { number: 1000 };
    assert!(HEADER.contains(&format!("default: return \"{}\";", unknown.name())));
    assert!(HEADER.contains(&format!("default: return \"{}\";", unknown.sentence())));
}

#[test]
fn refusals_are_those_of_the_header() {
    let refusals = names_of_enums("_refusal");
    for (name, number) in &refusals {
        match Refusal::from_number(*number as u32) {
            None => assert_eq!((*name, *number), ("KF_DONE", 0)),
            Some(refusal) => {
                assert_eq!(u64::from(refusal.number()), *number);
                assert_eq!(format!("KF_{}", refusal.name().replace(' ', "_")), *name);
            }
        }
    }
    for number in (0..1000).filter(|number| refusals.values().all(|named| *named != u64::from(*number))) {
        assert_eq!(Refusal::from_number(number), Some(Refusal::Unknown { number }));
    }
}
