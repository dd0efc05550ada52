//! How many rounds the command makes: those of `--limit`, or the usual number; and the listing program beside it.
mod program;

use std::fs;
use std::path::Path;

use program::{printed, run, shade_lines};

/// A file that is stored for the program `listing_many`.
fn stored(name: &str) -> Vec<u8> {
    fs::read(Path::new(env!("CARGO_MANIFEST_DIR")).join("../crates/listing_many").join(name)).unwrap()
}

/// The last input of `listing_many`, without its count line: 300 pixels whose run of 8 shades settles in its thirtieth
/// round, where it may.
fn settling_in_thirty() -> Vec<u8> {
    let all = stored("stdin");
    let mut rest = &all[..];
    loop {
        let length: usize = std::str::from_utf8(&rest[..5]).unwrap().parse().unwrap();
        let (input, behind) = rest[6..].split_at(length);
        if behind.is_empty() {
            return input.strip_prefix(b"8\n").unwrap().to_vec();
        }
        rest = behind;
    }
}

/// A picture of 128 by 128 pixels whose run of 12 shades settles in its 131st round, where it may.
fn settling_in_131() -> Vec<u8> {
    let pixel = |n: u32| [n * n % 251, n * n / 251 % 256, n * 7919 % 253].map(|level| level as u8);
    b"P6 128 128 255\n".iter().copied().chain((0..128 * 128).flat_map(pixel)).collect()
}

/// The lines of a sheet that tell rounds and whether they settled, and its shades as the lines of a listing.
fn told(arguments: &[&str], picture: &[u8]) -> (Vec<String>, Vec<String>) {
    let output = run(arguments, picture);
    let sheet = printed(&output);
    let rounds = sheet.lines().filter(|line| line.starts_with("rounds ") || line.starts_with("settled "));
    let listed = |line: &str| {
        let fields: Vec<&str> = line.split_whitespace().collect();
        [&fields[..4], &[fields[5]]].concat().join(" ")
    };
    (
        rounds.map(|line| line.split_whitespace().take(2).collect::<Vec<_>>().join(" ")).collect(),
        shade_lines(sheet).map(listed).collect(),
    )
}

#[test]
fn without_a_limit_a_run_goes_on_past_twenty_rounds() {
    let picture = settling_in_thirty();
    let usual = told(&["shades", "8"], &picture);
    assert_eq!(usual.0, ["rounds 30", "settled yes"]);
    for limit in ["0", "30", "100", "200"] {
        assert_eq!(told(&["shades", "8", "--limit", limit], &picture), usual, "--limit {limit}");
    }
    assert_eq!(told(&["shades", "8", "--limit", "29"], &picture).0, ["rounds 29", "settled no:"]);
}

#[test]
fn with_a_limit_of_twenty_the_shades_are_those_of_the_listing() {
    let (rounds, shades) = told(&["shades", "8", "--limit", "20"], &settling_in_thirty());
    assert_eq!(rounds, ["rounds 20", "settled no:"]);
    let listings = String::from_utf8(stored("stdout")).unwrap();
    let lines: Vec<&str> = listings.lines().collect();
    let listing = &lines[lines.len() - 10..];
    assert!(listing[0].starts_with("300 300 20 0 "), "{}", listing[0]);
    assert_eq!(shades, &listing[1..9]);
}

#[test]
fn without_a_limit_a_run_ends_after_a_hundred_rounds() {
    let picture = settling_in_131();
    let usual = told(&["shades", "12"], &picture);
    assert_eq!(usual.0, ["rounds 100", "settled no:"]);
    assert_eq!(told(&["shades", "12", "--limit", "100"], &picture), usual);
    assert_eq!(told(&["shades", "12", "--limit", "200"], &picture).0, ["rounds 131", "settled yes"]);
}
