//! The listings that are stored for the Rattle programs are those of the model, and tell every slip of the listing
//! program apart. That the programs print what is stored is seen where they are run, by `rt`.
use std::fs;
use std::path::Path;

use compare::make::listing::{five_pixels, inputs, settling_in_thirty, sheet_h, stored, ten_shades_with_twins};
use compare::model::slip::{ListingSlip, LISTING_SLIPS};
use compare::model::Model;

/// A file of a program's crate.
fn file(program: &str, name: &str) -> Vec<u8> {
    let path = Path::new(env!("CARGO_MANIFEST_DIR")).join("../crates").join(program).join(name);
    fs::read(&path).unwrap_or_else(|why| panic!("{}: {why}", path.display()))
}

/// What the model prints for all inputs, bent by a slip or not.
fn printed(model: &mut Model, slip: Option<ListingSlip>) -> Vec<u8> {
    inputs().iter().flat_map(|input| model.listing(input, slip)).collect()
}

#[test]
fn the_stored_inputs_are_those_made_here() {
    assert!(file("listing_many", "stdin") == stored(&inputs()));
}

#[test]
fn the_stored_listings_are_the_models() {
    let mut model = Model::default();
    let due = printed(&mut model, None);
    assert_eq!(String::from_utf8_lossy(&file("listing_many", "stdout")), String::from_utf8_lossy(&due));
    let edges = [
        "settled",
        "not settled",
        "more than two rounds",
        "a tie",
        "an empty group",
        "other pixels mapped than grouped",
        "a mean that is a level higher where it is rounded twice",
        "a group's mean at a half",
        "a shade with no group",
        "a malformed count line",
        "a malformed count line on a long input",
        "a long input",
        "a listing of more than 8,192 pixels",
        "a side of 0",
        "a side above 16,384",
        "a product above 16,777,216",
        "a depth not 255",
        "a raster too short",
        "a raster too long",
        "a count of 0",
        "a count above 64",
        "more shades than used entries",
        "two equal entries",
        "twins with others between them",
    ];
    let missed: Vec<_> = edges.into_iter().filter(|edge| !model.met.contains_key(edge)).collect();
    assert_eq!(missed, Vec::<&str>::new());
}

#[test]
fn the_programs_own_listing_is_the_models() {
    let due = Model::default().listing(&file("listing_main", "stdin"), None);
    assert_eq!(String::from_utf8_lossy(&file("listing_main", "stdout")), String::from_utf8_lossy(&due));
}

#[test]
fn every_slip_of_the_listing_shows_in_a_stored_one() {
    let stored = file("listing_many", "stdout");
    for slip in LISTING_SLIPS {
        assert!(printed(&mut Model::default(), Some(slip)) != stored, "{slip:?}");
    }
}

#[test]
fn sheet_h_is_listed_as_level_10_with_an_error_of_15() {
    let due = Model::default().listing(&sheet_h(), None);
    assert_eq!(String::from_utf8_lossy(&due), "2 32 1 1 2048 2\n0 10 0 0 32\n15\n");
    let twice = Model::default().listing(&sheet_h(), Some(ListingSlip::TakesThePaletteFromShades));
    assert!(twice.ends_with(b"\n0 11 0 0 32\n17\n"), "{}", String::from_utf8_lossy(&twice));
    let after = Model::default().listing(&settling_in_thirty(), None);
    assert!(file("listing_many", "stdout").ends_with(&[due, after].concat()));
}

#[test]
fn twins_are_listed_as_refused_18_alone() {
    let listing = |input: &[u8], slip| String::from_utf8(Model::default().listing(input, slip)).unwrap();
    let fewer = listing(&five_pixels(3), None);
    assert_eq!(fewer, "5 5 2 1 342 20\n0 1 2 2 3\n1 0 1 0 1\n2 2 0 1 1\n2\n");
    for (input, shades) in [(five_pixels(4), 4), (ten_shades_with_twins(), 10)] {
        assert_eq!(listing(&input, None), "refused 18\n");
        // In spite of twins it would have a line with no pixels.
        let listed = listing(&input, Some(ListingSlip::ListsTwins));
        let lines: Vec<&str> = listed.lines().skip(1).collect();
        assert!(lines.len() == shades + 1 && lines[..shades].iter().any(|line| line.ends_with(" 0")), "{listed}");
    }
    assert_eq!(listing(&five_pixels(4), Some(ListingSlip::TakesThePaletteFromShades)), "refused 18\n");
    assert!(listing(&five_pixels(5), None).ends_with("\n4 1 1 2 1\n0\n"));
}

#[test]
fn a_run_that_would_settle_in_its_thirtieth_round_is_listed_after_twenty() {
    let due = Model::default().listing(&settling_in_thirty(), None);
    assert!(due.starts_with(b"300 300 20 0 "), "{}", String::from_utf8_lossy(&due));
    assert!(file("listing_many", "stdout").ends_with(&due));
    let longer = Model::default().listing(&settling_in_thirty(), Some(ListingSlip::ListsByTheUsualLimit));
    assert!(longer.starts_with(b"300 300 30 1 "), "{}", String::from_utf8_lossy(&longer));
}
