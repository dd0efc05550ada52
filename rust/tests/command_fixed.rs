//! `--fixed`: shades from stock, on every output, and beside what the other options ask for.
mod program;
mod tools;

use std::fs;
use std::path::Path;

use kohlenfloh::{Palette, Picture, RunOptions, Table};
use program::{assert_wrong, printed, run, said, shade_lines, Folder, OUTPUTS, RUG};
use tools::{installed, shell};

/// Four pixels: three (0,0,0) and one (10,0,0).
const SMALL: &[u8] = b"P6 4 1 255\n\0\0\0\0\0\0\0\0\0\x0a\0\0";

/// What the program prints for some arguments, on these pixels.
fn small(arguments: &[&str]) -> String {
    let output = run(&[["shades"].as_slice(), arguments].concat(), SMALL);
    assert_eq!((said(&output), output.status.code()), ("", Some(0)), "{arguments:?}");
    printed(&output).into()
}

/// What is asked for of the rug, as its sheet.
fn rug(arguments: &[&str]) -> String {
    let output = run(&[["shades"].as_slice(), arguments, &[RUG]].concat(), b"");
    assert_eq!((said(&output), output.status.code()), ("", Some(0)), "{arguments:?}");
    printed(&output).into()
}

/// How many shades of a sheet have pixels, by its lines.
fn in_use(sheet: &str) -> usize {
    shade_lines(sheet).filter(|line| !line.contains("not used")).count()
}

#[test]
fn the_sheet_marks_them_with_pixels_or_without() {
    let sheet = small(&["3", "--fixed", "020000,ffffff"]);
    let shades = "\
shade    R    G    B  hex        pixels  share %
    0    2    0    0  #020000         3    75.00  stock
    1  255  255  255  #ffffff         0     0.00  stock, not used, buy nothing
    2   10    0    0  #0a0000         1    25.00
";
    assert!(sheet.contains(shades), "{sheet}");
    assert!(sheet.contains("\nshades             2 of 3 shades in use; 2 from stock\n"), "{sheet}");
    assert!(sheet.contains("\nrounds             1\nsettled            yes\nerror              12\n"), "{sheet}");
    let first = small(&["3", "--fixed", "020000,FFFFFF"]);
    for arguments in [["--fixed=020000,ffFFff", "3"].as_slice(), &["3", "-", "--fixed", "020000,FFFFFF"]] {
        assert_eq!(small(arguments), first);
    }
    assert!(!small(&["2"]).contains("stock"));
}

#[test]
fn the_order_is_the_one_given() {
    let sheet = rug(&["6", "--fixed", "7c161e,1c2c5c"]);
    let levels = |number: usize| shade_lines(&sheet).nth(number).unwrap().split_whitespace().nth(4).unwrap();
    assert_eq!([levels(0), levels(1)], ["#7c161e", "#1c2c5c"]);
    let sheet = rug(&["6", "--fixed", "1c2c5c,7c161e"]);
    let levels = |number: usize| shade_lines(&sheet).nth(number).unwrap().split_whitespace().nth(4).unwrap();
    assert_eq!([levels(0), levels(1)], ["#1c2c5c", "#7c161e"]);
}

#[test]
fn the_table_and_the_object_say_so() {
    let csv = small(&["3", "--fixed", "020000,ffffff", "--csv", "-"]);
    let lines =
        "0,2,0,0,#020000,3,75.00,yes,yes\n1,255,255,255,#ffffff,0,0.00,no,yes\n2,10,0,0,#0a0000,1,25.00,yes,no\n";
    assert_eq!(csv, format!("shade,red,green,blue,hex,pixels,share,used,stock\n{lines}"));
    let json = small(&["3", "--fixed", "020000,ffffff", "--json", "-"]);
    assert!(
        json.contains("\n  \"wanted_in_use\": null,\n  \"fixed\": [\"#020000\", \"#ffffff\"],\n  \"limit\": 100,\n")
    );
    for line in [
        r##"{"shade": 0, "red": 2, "green": 0, "blue": 0, "hex": "#020000", "pixels": 3, "##,
        r##""hex": "#020000", "pixels": 3, "share": 75.00, "used": true, "stock": true},"##,
        r##""hex": "#ffffff", "pixels": 0, "share": 0.00, "used": false, "stock": true},"##,
        r##""hex": "#0a0000", "pixels": 1, "share": 25.00, "used": true, "stock": false}"##,
    ] {
        assert!(json.contains(line), "{json}");
    }
    assert!(json.contains("\n  \"distances\": 3,\n  \"final_total\": 3072,\n  \"error\": 12,\n"), "{json}");
    // Where none is fixed, nothing is told of it.
    let json = small(&["2", "--json", "-"]);
    assert!(json.contains("\n  \"wanted_in_use\": null,\n  \"limit\": 100,\n") && !json.contains("stock"), "{json}");
    assert!(!small(&["2", "--csv", "-"]).contains("stock"));
}

#[test]
fn the_drawing_marks_their_swatches() {
    let drawing = small(&["3", "--fixed", "020000,ffffff", "--sheet", "-"]);
    // In white on the dark shade and in black on the light one; the third is free.
    for (fill, ink) in [("#020000", "#ffffff"), ("#ffffff", "#000000")] {
        let (_, swatch) = drawing.split_once(&format!("fill=\"{fill}\" stroke=\"#999999\"/>\n")).unwrap();
        let (text, _) = swatch.split_once('\n').unwrap();
        assert!(text.ends_with(&format!(" fill=\"{ink}\">stock</text>")), "{text}");
    }
    assert_eq!(drawing.matches(">stock</text>").count(), 2);
    assert!(drawing.contains(">2 of 3 shades in use; 2 from stock</text>"), "{drawing}");
    assert!(!small(&["2", "--sheet", "-"]).contains("stock"));
}

#[test]
fn a_drawing_of_the_most_fixed_shades_can_be_read() {
    let folder = Folder::new("fixed-drawing");
    let raster: Vec<u8> = (0..3 * 100).map(|place: usize| (place * place / 5) as u8).collect();
    let picture = folder.write("many.ppm", &[b"P6 10 10 255\n".as_slice(), &raster].concat());
    let stock: Vec<String> = (0..63).map(|number| format!("{:06x}", number * 266_305)).collect();
    let path = folder.path("sheet.svg");
    let output = run(&["shades", "64", &picture, "--fixed", &stock.join(","), "--sheet", &path], b"");
    assert_eq!(output.status.code(), Some(0), "{}", said(&output));
    assert_eq!(shade_lines(printed(&output)).filter(|line| line.contains("  stock")).count(), 63);
    let drawing = String::from_utf8(folder.read("sheet.svg")).unwrap();
    assert_eq!(drawing.matches(">stock</text>").count(), 63);
    if installed(&["rsvg-convert"]) {
        let drawn = shell(Path::new(&folder.path(".")), "rsvg-convert sheet.svg -o sheet.png");
        assert!(drawn.status.success(), "{}", said(&drawn));
    }
}

/// The raster and the table of the rug.
fn rug_table(bytes: &[u8]) -> (&[u8], Table) {
    let raster = Picture::read(bytes).unwrap().raster();
    let mut table = Table::with_room(64);
    table.add(raster).unwrap();
    (raster, table)
}

#[test]
fn the_shades_are_those_of_the_library() {
    let folder = Folder::new("fixed");
    let bytes = fs::read(RUG).unwrap();
    let (raster, table) = rug_table(&bytes);
    let stock = [[30, 48, 89], [113, 71, 63], [0, 255, 0]];
    for (fixed, count, limit) in [(1, 2, 0), (1, 6, 0), (2, 7, 1), (3, 20, 2), (3, 20, 200)] {
        let found = table.run_fixed(&stock[..fixed], RunOptions::shades(count).limit(limit)).unwrap();
        let palette = table.palette_of(&found).unwrap();
        let mapped = palette.map(raster).unwrap();
        let typed: Vec<String> = stock[..fixed].iter().map(|[r, g, b]| format!("{r:02x}{g:02x}{b:02x}")).collect();
        let (index, colours) = (folder.path("index.pgm"), folder.path("palette.ppm"));
        let (count, limit) = (count.to_string(), limit.to_string());
        let fixed = typed.join(",");
        let files = ["--index", &index, "--palette", &colours];
        let sheet = rug(&[[&count, "--fixed", &fixed, "--limit", &limit].as_slice(), &files].concat());
        assert!(sheet.contains(&format!("\nrounds             {}\n", found.rounds)), "{sheet}");
        assert!(sheet.contains(&format!("\nerror              {}\n", mapped.figures.error)), "{sheet}");
        assert!(folder.read("index.pgm") == [b"P5\n64 96\n255\n".as_slice(), &mapped.index].concat());
        assert!(folder.read("palette.ppm").ends_with(palette.bytes()), "{sheet}");
    }
}

#[test]
fn it_goes_with_a_number_of_shades_in_use() {
    // The rug has no pixel of the green; with it one shade more is wanted.
    for (fixed, number, unused) in [("1c2c5c", 1, 0), ("7c161e,1c2c5c", 2, 0), ("1c2c5c,00ff00", 2, 1)] {
        for wanted in [3, 6, 7, 12] {
            let (count, plain) = (wanted.max(number + 1)..=42)
                .map(|count| (count, rug(&[&count.to_string(), "--fixed", fixed])))
                .find(|(_, sheet)| in_use(sheet) == wanted)
                .unwrap();
            assert_eq!(count, wanted + unused);
            let words = format!("{wanted} of {count} shades in use; {number} from stock");
            let told = format!("{words}; {count} is the smallest count that uses {wanted}");
            assert!(plain.contains(&words), "{plain}");
            let sheet = rug(&["--fixed", fixed, "--in-use", &wanted.to_string()]);
            assert_eq!(sheet, plain.replace(&words, &told));
        }
    }
}

#[test]
fn fewer_may_be_wanted_in_use_than_are_fixed() {
    // White has no pixel, and the others one and three.
    let sheet = small(&["--in-use", "2", "--fixed", "020000,ffffff"]);
    let words = "\nshades             2 of 3 shades in use; 2 from stock; 3 is the smallest count that uses 2\n";
    assert!(sheet.contains(words), "{sheet}");
    let output = run(&["shades", "--in-use", "1", "--fixed", "020000,ffffff"], SMALL);
    assert_eq!((printed(&output), output.status.code()), ("", Some(65)));
    let told = "no count of shades from 3 to 4 gives a picture that uses exactly 1 of them; of 3 it uses 2";
    assert_eq!(said(&output), format!("kohlenfloh: standard input: {told}\n"));
}

#[test]
fn what_the_library_refuses_it_refuses_here_too() {
    let many = "99999999999999999999999999";
    let one_fixed =
        |count: &str| format!("BAD COUNT: {count} shades are wanted, and with 1 fixed there can be 2 to 64");
    let in_use = |count: &str| format!("BAD COUNT: {count} shades are wanted, and there can be 1 to 64");
    let few = |count: usize, fixed: usize, colours: usize| {
        let most = fixed + colours;
        format!(
            "FEW COLOURS: {count} shades are wanted, {fixed} of them fixed, and the picture has {colours} colours \
             unlike these; ask for {most} at most"
        )
    };
    let limit = "BAD LIMIT: a limit of 201 rounds is wanted, and it can be at most 200".to_string();
    let none_left = |count: usize| {
        format!(
            "FEW COLOURS: {count} shades are wanted, and every colour of the picture is one of the 2 fixed; fix fewer"
        )
    };
    for (wanted, fixed, status, words) in [
        (["0"].as_slice(), "020000", 4, one_fixed("0")),
        (&["1"], "020000", 4, one_fixed("1")),
        (&["65"], "020000", 4, one_fixed("65")),
        (&[many], "020000", 4, one_fixed(many)),
        (&["2"], "020000,030000", 4, one_fixed("2").replace("1 fixed there can be 2", "2 fixed there can be 3")),
        (&["--in-use", "0"], "020000", 4, in_use("0")),
        (&["--in-use", "65"], "020000", 4, in_use("65")),
        (&["4"], "020000", 5, few(4, 1, 2)),
        (&["4"], "000000,020000", 5, few(4, 2, 1)),
        (&["--in-use", "4"], "020000", 5, few(4, 1, 2)),
        (&["3"], "0A0000,000000", 5, none_left(3)),
        (&["--in-use", "1"], "0A0000,000000", 5, none_left(1)),
        (&["2", "--limit", "201"], "020000", 6, limit),
    ] {
        let output = run(&[["shades"].as_slice(), wanted, &["--fixed", fixed]].concat(), SMALL);
        assert_eq!((printed(&output), output.status.code()), ("", Some(status)), "{wanted:?} {fixed}");
        assert_eq!(said(&output), format!("kohlenfloh: standard input: refused {status} {words}\n"));
    }
    // As many as are told are accepted.
    assert!(small(&["3", "--fixed", "020000"]).contains("\nshades             2 of 3 shades in use"));
    assert!(small(&["3", "--fixed", "000000,020000"]).contains("\nshades             2 of 3 shades in use"));
    let output = run(&["shades", "6", "--fixed", "1E3059,71473f"], b"P5 1 1 255 a");
    assert!(said(&output).ends_with(" | kohlenfloh shades 6 --fixed 1e3059,71473f\n"), "{}", said(&output));
}

#[test]
fn a_shade_that_is_fixed_twice_is_refused_by_its_twins() {
    let folder = Folder::new("fixed-twins");
    let arguments = [vec!["shades".to_string(), "--fixed".into(), "020000,ffffff,020000".into()], folder.all_outputs()];
    OUTPUTS.iter().for_each(|(_, name)| drop(folder.write(name, b"former")));
    for wanted in [vec!["4".to_string()], vec!["--in-use".into(), "2".into()], vec!["--in-use".into(), "4".into()]] {
        let output = run(&[arguments.concat(), wanted].concat(), SMALL);
        let told = "of 4 shades, 0 and 2 are fixed and equal, both 2 0 0 #020000, and would be one yarn; fix it once";
        assert_eq!(said(&output), format!("kohlenfloh: standard input: refused 18 TWIN SHADE: {told}\n"));
        assert_eq!((printed(&output), output.status.code()), ("", Some(18)));
        assert!(OUTPUTS.iter().all(|(_, name)| folder.read(name) == b"former"));
    }
}

#[test]
fn a_wrong_list_is_told_by_its_entry() {
    let begin = "--fixed wants shades of six hexadecimal digits, as 1e3059,71473f, and";
    for (typed, what) in [
        ("", "none is given"),
        (",", "entry 1, at character 1, is empty"),
        ("1e3059,", "entry 2, at character 8, is empty"),
        ("1e3059,,71473f", "entry 2, at character 8, is empty"),
        ("1e305", "entry 1, at character 1, is 1e305, which has 5"),
        ("1e3059,71473f,0", "entry 3, at character 15, is 0, which has 1"),
        ("1e3059,71473f0", "entry 2, at character 8, is 71473f0, which has 7"),
        ("1e3059,71473f71473f71473f", "entry 2, at character 8, is 71473f71473f71473f, which has 18"),
        ("1e3059,71473g", "entry 2, at character 8, is 71473g, and 'g' is no such digit"),
        ("1e3059,+71473", "entry 2, at character 8, is +71473, and '+' is no such digit"),
        ("1e3059, 71473f", "entry 2, at character 8, is  71473f, and ' ' is no such digit"),
        ("#1e3059", "entry 1, at character 1, is #1e3059, and '#' is no such digit"),
        ("1e3059;71473f", "entry 1, at character 1, is 1e3059;71473f, and ';' is no such digit"),
        ("\u{661}e3059", "entry 1, at character 1, is \u{661}e3059, and '\u{661}' is no such digit"),
        ("red", "entry 1, at character 1, is red, and 'r' is no such digit"),
    ] {
        assert_wrong(&["shades", "6", "--fixed", typed], &format!("{begin} {what}"));
        assert_wrong(&["shades", "6", &format!("--fixed={typed}"), RUG], &format!("{begin} {what}"));
    }
    let list = |count: usize| vec!["0000ff"; count].join(",");
    assert_wrong(&["shades", "64", "--fixed", &list(64)], "--fixed takes 63 shades at most, and 64 are given");
    let output = run(&["shades", "64", "--fixed", &list(63)], SMALL);
    assert_eq!(output.status.code(), Some(18), "{}", said(&output));
}

#[test]
fn it_takes_a_value_stands_once_and_goes_not_with_jancey() {
    for (arguments, words) in [
        (["shades", "6", "--fixed"].as_slice(), "nothing follows --fixed"),
        (&["shades", "6", "--fixed", "1e3059", "--fixed=71473f"], "--fixed is given twice"),
        (&["shades", "6", "--fixed", "1e3059", "--jancey"], "--jancey and --fixed cannot both be given"),
        (&["shades", "6", "--jancey", "--fixed=1e3059"], "--jancey and --fixed cannot both be given"),
        (&["shades", "--fixed", "1e3059", RUG], "K, the number of shades, is not a whole number: "),
        (&["--fixed", "1e3059"], "there is no command --fixed"),
        (
            &["shades", "6", "--sheet", "--fixed", "1e3059"],
            "--sheet wants the name of a file, and --fixed is an option; write --sheet=--fixed if it is a file",
        ),
    ] {
        let words = if words.ends_with(": ") { format!("{words}{RUG}") } else { words.into() };
        assert_wrong(arguments, &words);
    }
    let output = run(&["shades", "2", "--", "--fixed"], b"");
    assert!(said(&output).starts_with("kohlenfloh: cannot read --fixed: "), "{}", said(&output));
}

#[test]
fn fixed_shades_are_what_the_pixels_are_mapped_to() {
    let folder = Folder::new("fixed-mapped");
    let preview = folder.path("preview.ppm");
    small(&["3", "--fixed", "020000,ffffff", "--preview", &preview]);
    assert_eq!(folder.read("preview.ppm"), b"P6\n4 1\n255\n\x02\0\0\x02\0\0\x02\0\0\x0a\0\0");
    let palette = Palette::from_bytes(&[2, 0, 0, 255, 255, 255, 10, 0, 0]).unwrap();
    assert_eq!(palette.map(&SMALL[11..]).unwrap().figures.error, 12);
}

#[test]
fn the_help_tells_of_fixed_shades() {
    let help = run(&["--help"], b"");
    let (wrong, words) = (run(&["shades"], b""), printed(&help).split_whitespace().collect::<Vec<_>>().join(" "));
    assert!(said(&wrong).contains("[--fixed SHADES]"));
    for part in [
        "with --fixed 1e3059,71473f the shades 0 and 1 are these two, and the others are looked for beside them",
        "--fixed SHADES shades from stock, which never move: six hexadecimal digits RRGGBB each",
        "Fixed shades are counted like others, so those without a pixel are not in use",
        "With --fixed there is a column more, stock: whether the shade is fixed",
        "fixed, a list of the fixed shades as # and six hexadecimal digits",
        "4 BAD COUNT: K is not 1 to 64, or not above the number of fixed shades",
        "with fixed shades, fewer that are unlike these than K leaves free",
    ] {
        assert!(words.contains(part), "{part}");
    }
}
