//! The command on pictures that are accepted: the order sheet and each file.
mod program;

use std::fs;
use std::io::Write;

use kohlenfloh::{made, Picture, RunOptions, Table};
use program::{printed, program, run, said, Folder, RUG};

/// The order sheet of the rug for seven shades, one more than it has yarns, without the line that names the picture.
const RUG_SHEET: &str = "\
width              64
height             96
pixels             6144
colours            42
average colour     108  81  69  #6c5145
shades             6 of 7 shades in use
rounds             2
settled            yes
error              86391
mean square error  14.06

shade    R    G    B  hex        pixels  share %
    0  108   81   69  #6c5145         0     0.00  not used, buy nothing
    1  227  211  177  #e3d3b1       824    13.41
    2   34   24   26  #22181a      1212    19.73
    3  188  140   52  #bc8c34      1284    20.90
    4   28   44   92  #1c2c5c      1384    22.53
    5  124   22   30  #7c161e      1116    18.16
    6   52   92   64  #345c40       324     5.27

The pixels of the shades sum to the picture's pixels. Each share, and the mean, is rounded by itself
to two digits by whole-number arithmetic, halves up; <0.01 is a share that is there, but smaller.
";

/// The scope's example, three pixels (0,0,0) and one (10,0,0).
const SMALL: &[u8] = b"P6\n2 2\n255\n\0\0\0\0\0\0\0\0\0\x0a\0\0";

/// The levels of each shade of the rug.
const RUG_SHADES: [[u8; 3]; 7] =
    [[108, 81, 69], [227, 211, 177], [34, 24, 26], [188, 140, 52], [28, 44, 92], [124, 22, 30], [52, 92, 64]];

/// The whole order sheet of the rug under a name, down to what made it.
fn rug_sheet(name: &str) -> String {
    let (version, toolchain, proof, sources) = (made::VERSION, made::TOOLCHAIN, made::PROOF, made::SOURCES);
    format!(
        "picture            {name}\n{RUG_SHEET}\n\
         made by            kohlenfloh {version}\n\
         toolchain          {toolchain}\n\
         proof              {proof}\n\
         sources            {sources}\n"
    )
}

/// The sum of the squared differences of two colours.
fn distance(one: &[u8], other: &[u8]) -> u64 {
    one.iter().zip(other).map(|(a, b)| u64::from(a.abs_diff(*b)).pow(2)).sum()
}

/// The number of the shade of the rug that is nearest to a colour, the lowest at a tie.
fn nearest(colour: &[u8]) -> u8 {
    (0..7).min_by_key(|number| distance(colour, &RUG_SHADES[usize::from(*number)])).unwrap()
}

#[test]
fn the_sheet_of_a_file() {
    let output = run(&["shades", "7", RUG], b"");
    assert_eq!(printed(&output), rug_sheet("rug.ppm"));
    assert_eq!((said(&output), output.status.code()), ("", Some(0)));
}

#[test]
fn the_sheet_of_standard_input() {
    let rug = fs::read(RUG).unwrap();
    for arguments in [["shades", "7"].as_slice(), &["shades", "7", "-"]] {
        let output = run(arguments, &rug);
        assert_eq!(printed(&output), rug_sheet("standard input"));
        assert_eq!(output.status.code(), Some(0));
    }
}

#[test]
fn each_file_follows_from_the_picture_and_the_sheet() {
    let folder = Folder::new("files");
    let arguments = [vec!["shades".into(), "7".into(), RUG.into()], folder.all_outputs()].concat();
    let output = run(&arguments, b"");
    assert_eq!((said(&output), output.status.code()), ("", Some(0)));
    assert_eq!(folder.names(), ["index.pgm", "palette.ppm", "preview.ppm", "sheet.svg"]);

    let rug = fs::read(RUG).unwrap();
    let raster = Picture::read(&rug).unwrap().raster();
    let index: Vec<u8> = raster.chunks(3).map(nearest).collect();
    let preview: Vec<u8> = index.iter().flat_map(|number| RUG_SHADES[usize::from(*number)]).collect();
    assert_eq!(folder.read("index.pgm"), [b"P5\n64 96\n255\n".as_slice(), &index].concat());
    assert_eq!(folder.read("palette.ppm"), [b"P6\n7 1\n255\n".as_slice(), RUG_SHADES.as_flattened()].concat());
    assert_eq!(folder.read("preview.ppm"), [b"P6\n64 96\n255\n".as_slice(), &preview].concat());
    assert_eq!(distance(raster, &preview), 86_391);
    let pixels = |number| index.iter().filter(|other| **other == number).count();
    assert_eq!([0, 1, 2, 3, 4, 5, 6].map(pixels), [0, 824, 1212, 1284, 1384, 1116, 324]);
}

#[test]
fn a_picture_of_several_strips_is_mapped_as_a_whole() {
    let folder = Folder::new("strips");
    let raster: Vec<u8> = (0..3 * 1999 * 1501).map(|place: usize| (place * place / 5000) as u8 & 0xf0).collect();
    let input = [b"P6 1999 1501 255\n".as_slice(), &raster].concat();
    let mut table = Table::with_room(raster.len() / 3);
    table.add(&raster).unwrap();
    let found = table.run(RunOptions::shades(5)).unwrap();
    let mapped = table.palette_from_groups(&found.shades, &found.members).unwrap().map(&raster).unwrap();

    let output = run(&["shades", "5", "--index", &folder.path("index.pgm")], &input);
    assert!(printed(&output).contains(&format!("\ncolours            {}\n", table.used())));
    let [red, green, blue] = table.average().unwrap();
    assert!(printed(&output).contains(&format!("\naverage colour     {red}  {green}  {blue}  #")));
    assert!(printed(&output).contains(&format!("\nerror              {}\n", mapped.figures.error)));
    assert!(folder.read("index.pgm") == [b"P5\n1999 1501\n255\n".as_slice(), &mapped.index].concat());
}

#[test]
fn the_average_colour_is_the_nearest_level_halves_up() {
    let sheet_h = [[10, 0, 0].repeat(17), [11, 0, 0].repeat(15)].concat();
    let cases: [(&[u8], &str); 5] = [
        (&[0, 0, 0, 1, 1, 1], "1  1  1  #010101"),
        (&[0, 254, 7, 0, 255, 8, 0, 255, 8, 1, 255, 7], "0  255  8  #00ff08"),
        (&[255, 255, 255], "255  255  255  #ffffff"),
        (&[0, 0, 0, 0, 0, 0, 0, 0, 0, 10, 0, 0], "3  0  0  #030000"),
        // Rounded to sixteenths and then to levels it would be 11.
        (&sheet_h, "10  0  0  #0a0000"),
    ];
    for (raster, average) in cases {
        let picture = [format!("P6 {} 1 255 ", raster.len() / 3).as_bytes(), raster].concat();
        let output = run(&["shades", "1"], &picture);
        assert!(printed(&output).contains(&format!("\naverage colour     {average}\n")), "{}", printed(&output));
    }
    let picture = [b"P6 32 1 255 ".as_slice(), &sheet_h].concat();
    assert!(printed(&run(&["shades", "1"], &picture)).contains("\n    0   10    0    0  #0a0000        32   100.00\n"));
}

#[test]
fn the_limit_is_handed_on() {
    let limited = run(&["shades", "--limit", "1", "2", "-"], SMALL);
    assert!(
        printed(&limited).contains("\nrounds             1\nsettled            no: more rounds may lower the error")
    );
    for limit in ["0", "2", "200"] {
        let output = run(&["shades", "2", "--limit", limit], SMALL);
        assert!(printed(&output).contains("\nrounds             2\nsettled            yes\n"), "limit {limit}");
    }
}

#[test]
fn a_former_file_is_replaced() {
    let folder = Folder::new("former");
    let index = folder.write("index.pgm", b"former");
    assert_eq!(run(&["shades", "2", "--index", &index], SMALL).status.code(), Some(0));
    assert_eq!(folder.read("index.pgm"), b"P5\n2 2\n255\n\0\0\0\x01");
    assert_eq!(folder.names(), ["index.pgm"]);
}

#[cfg(unix)]
#[test]
fn a_link_stays_and_permissions_too() {
    use std::os::unix::fs::{symlink, PermissionsExt};
    let folder = Folder::new("link");
    let place = folder.write("place.pgm", b"former");
    let link = folder.path("link.pgm");
    fs::set_permissions(&place, fs::Permissions::from_mode(0o640)).unwrap();
    symlink("place.pgm", &link).unwrap();
    assert_eq!(run(&["shades", "2", "--index", &link], SMALL).status.code(), Some(0));
    assert!(fs::symlink_metadata(&link).unwrap().is_symlink());
    assert_eq!(folder.read("place.pgm"), b"P5\n2 2\n255\n\0\0\0\x01");
    assert_eq!(fs::metadata(&place).unwrap().permissions().mode() & 0o777, 0o640);
}

#[test]
fn a_reader_that_goes_away_is_no_failure() {
    let mut child = program(&["shades", "2"]).spawn().unwrap();
    drop(child.stdout.take());
    child.stdin.take().unwrap().write_all(SMALL).unwrap();
    let output = child.wait_with_output().unwrap();
    assert_eq!((said(&output), output.status.code()), ("", Some(0)));
}

#[test]
fn the_help_tells_options_statuses_and_examples() {
    for arguments in [["--help"].as_slice(), &["-h"], &["shades", "--help"], &["shades", "6", "-h"]] {
        let output = run(arguments, b"");
        assert_eq!((said(&output), output.status.code()), ("", Some(0)));
        for word in [
            "--limit N",
            "--index FILE",
            "--sheet FILE",
            "13  BAD SIZE: a side",
            "15  BAD RASTER",
            "70  ",
            "not used",
            "Examples",
        ] {
            assert!(printed(&output).contains(word), "{word}");
        }
        assert!(printed(&output).lines().all(|line| line.len() <= 80));
    }
}
