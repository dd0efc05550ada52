//! README's examples: each command line gives what is shown.
mod program;

use program::{printed, run, RUG};

/// README.
const README: &str = include_str!("../../README.md");

/// Lines that stand in README as they are, indented there.
fn shown(lines: &str) -> bool {
    let lines: String = lines.lines().map(|line| format!("    {line}").trim_end().to_string() + "\n").collect();
    README.contains(&format!("\n\n{lines}\n"))
}

#[test]
fn the_command_line_gives_the_sheet_that_is_shown() {
    let line = README.lines().find(|line| line.starts_with("    cargo run ") && line.contains(" -- shades ")).unwrap();
    let (_, words) = line.split_once(" -- ").unwrap();
    let (asked, _) = words.split_once(" examples/rug.ppm --sheet ").unwrap();
    let arguments: Vec<&str> = asked.split(' ').chain([RUG]).collect();
    let output = run(&arguments, b"");
    let (sheet, _) = printed(&output).split_once("\nThe pixels of the shades sum").unwrap();
    assert!(shown(sheet), "{sheet}");
}

#[test]
fn the_command_line_with_stock_gives_the_shades_that_are_shown() {
    let line = README.lines().find(|line| line.starts_with("    target/release/kohlenfloh shades ")).unwrap();
    let (_, words) = line.split_once("kohlenfloh ").unwrap();
    let (asked, _) = words.split_once(" examples/rug.ppm").unwrap();
    let arguments: Vec<&str> = asked.split(' ').chain([RUG]).collect();
    let output = run(&arguments, b"");
    let (_, shades) = printed(&output).split_once("\n\nshade ").unwrap();
    let (shades, _) = shades.split_once("\nThe pixels of the shades sum").unwrap();
    assert!(shades.contains("  stock\n") && shown(&format!("shade {shades}")), "{shades}");
}

#[test]
fn the_listing_is_the_one_that_is_stored() {
    assert!(shown(include_str!("../../examples/rug.txt")));
}
