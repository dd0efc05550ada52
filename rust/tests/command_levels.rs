//! The levels of the shades, on the sheet and in every file: each rounded once, from the mean of its group.
mod program;

use std::fs;

use kohlenfloh::{Picture, RunOptions, Table};
use program::{printed, run, said, Folder, RUG};

/// Sheet H, 17 pixels (10,0,0) and 15 of (11,0,0), with 32 pixels of another colour behind it.
fn sheet_h() -> Vec<u8> {
    let raster = [[10, 0, 0].repeat(17), [11, 0, 0].repeat(15), [200, 90, 7].repeat(32)].concat();
    [b"P6 64 1 255 ".as_slice(), &raster].concat()
}

#[test]
fn a_level_below_a_half_is_not_lifted_by_sixteenths() {
    let folder = Folder::new("levels");
    let outputs = ["--palette", "--preview", "--csv", "--json", "--sheet"];
    let arguments = outputs.iter().flat_map(|option| [option.to_string(), folder.path(option)]);
    let arguments: Vec<String> = ["shades".into(), "2".into()].into_iter().chain(arguments).collect();
    let output = run(&arguments, &sheet_h());
    assert_eq!((said(&output), output.status.code()), ("", Some(0)));
    let sheet = printed(&output);
    assert!(sheet.contains("\nerror              15\nmean square error  0.23\n"), "{sheet}");
    let lines = "    0  200   90    7  #c85a07        32    50.00\n    1   10    0    0  #0a0000        32    50.00\n";
    assert!(sheet.contains(lines), "{sheet}");
    assert_eq!(folder.read("--palette"), b"P6\n2 1\n255\n\xc8\x5a\x07\x0a\0\0");
    let preview = [b"P6\n64 1\n255\n".to_vec(), [10, 0, 0].repeat(32), [200, 90, 7].repeat(32)].concat();
    assert_eq!(folder.read("--preview"), preview);
    for (option, words) in [("--csv", "\n1,10,0,0,#0a0000,32,"), ("--json", "\"error\": 15,"), ("--sheet", "#0a0000")] {
        let text = String::from_utf8(folder.read(option)).unwrap();
        assert!(text.contains(words) && !text.contains("#0b0000"), "{option}: {text}");
    }
}

#[test]
fn the_sheet_of_one_shade_tells_the_average_colour() {
    let rug = fs::read(RUG).unwrap();
    for picture in [&rug, &sheet_h()] {
        let output = run(&["shades", "1"], picture);
        let told = |line: &str| line.split_whitespace().find(|word| word.starts_with('#')).map(String::from);
        let lines = ["average colour ", "    0 "].map(|begin| {
            printed(&output).lines().find(|line| line.starts_with(begin)).and_then(told).expect("a colour")
        });
        assert_eq!(lines[0], lines[1]);
    }
}

#[test]
fn the_sheet_has_the_palette_from_the_runs_groups() {
    let raster: Vec<u8> = (0..3 * 64 * 64).map(|place: usize| (place * place / 300) as u8 & 0xf6).collect();
    let input = [b"P6 64 64 255\n".as_slice(), &raster].concat();
    let mut table = Table::with_room(64 * 64);
    table.add(Picture::read(&input).unwrap().raster()).unwrap();
    let folder = Folder::new("groups");
    let mut lower = 0;
    for (count, limit) in [(3, "1"), (9, "0"), (40, "4"), (64, "0")] {
        let found = table.run(RunOptions::shades(count).limit(limit.parse().unwrap())).unwrap();
        let palette = table.palette_from_groups(&found.shades, &found.members).unwrap();
        let path = folder.path("palette.ppm");
        let output = run(&["shades", &count.to_string(), "--limit", limit, "--palette", &path], &input);
        assert_eq!(output.status.code(), Some(0), "{}", said(&output));
        assert!(folder.read("palette.ppm").ends_with(palette.bytes()), "{count} shades");
        let error = palette.map(&raster).unwrap().figures.error;
        assert!(printed(&output).contains(&format!("\nerror              {error}\n")), "{count} shades");
        lower += usize::from(found.shades.palette().unwrap() != palette);
    }
    assert!(lower > 0, "no palette differs from that of the shades alone");
}
