//! CSV, JSON and standard output as an output, held against the order sheet; and what the help tells of them.
mod program;

use std::ffi::OsStr;
use std::fs;
use std::os::unix::ffi::OsStrExt;
use std::path::Path;
use std::process::{Command, Stdio};

use program::{printed, program, run, said, shade_lines, Folder, RUG};

/// The options that ask for an output.
const OPTIONS: [&str; 6] = ["--index", "--palette", "--preview", "--sheet", "--csv", "--json"];

/// Prints what a CSV file holds, a line for each row.
const READ_CSV: &str = "
import csv, sys
for row in csv.reader(open(sys.argv[1], newline='', encoding='utf-8')):
    print(*row)
";

/// Prints what a JSON file holds: a line for each figure, for each shade, and for each thing that made the program.
/// Numbers with a point are printed by their digits, the average colour by its values.
const READ_JSON: &str = "
import json, sys
held = json.load(open(sys.argv[1], encoding='utf-8'), parse_float=lambda digits: digits)
order, made = held.pop('order'), held.pop('made')
average = held['average']
assert list(average) == ['red', 'green', 'blue', 'hex']
held['average'] = '  '.join(str(value) for value in average.values())
for name, value in list(held.items()) + list(made.items()):
    sys.stdout.buffer.write(f'{name}: {value}\\n'.encode())
for shade in order:
    print(*shade.keys())
    print(*shade.values())
";

/// The lines that a script of Python prints on a file.
fn python(script: &str, path: &str) -> Vec<String> {
    let output = Command::new("python3").args(["-c", script, path]).output().unwrap();
    assert!(output.status.success(), "{}", said(&output));
    printed(&output).lines().map(String::from).collect()
}

/// The shades of an order sheet, each as its first seven values.
fn shades_of(sheet: &str) -> Vec<Vec<&str>> {
    shade_lines(sheet).map(|line| line.split_whitespace().take(7).collect()).collect()
}

/// A figure of an order sheet.
fn figure<'a>(sheet: &'a str, name: &str) -> &'a str {
    let line = sheet.lines().find_map(|line| line.strip_prefix(name).filter(|rest| rest.starts_with("  ")));
    line.unwrap_or_else(|| panic!("no {name}")).trim()
}

/// A shade's values as a line, with the word that says whether it is used.
fn line_of(shade: &[&str], words: [&str; 2]) -> String {
    format!("{} {}", shade.join(" "), words[usize::from(shade[5] == "0")])
}

#[test]
fn the_table_tells_what_the_sheet_tells() {
    let folder = Folder::new("csv");
    let path = folder.path("order.csv");
    let output = run(&["shades", "7", RUG, "--csv", &path], b"");
    assert_eq!((said(&output), output.status.code()), ("", Some(0)));
    let shades = shades_of(printed(&output));
    assert_eq!(shades.len(), 7);
    let mut lines = vec!["shade red green blue hex pixels share used".to_string()];
    lines.extend(shades.iter().map(|shade| line_of(shade, ["yes", "no"])));
    assert_eq!(python(READ_CSV, &path), lines);
    let text = String::from_utf8(folder.read("order.csv")).unwrap();
    assert!(text.starts_with("shade,red,green,blue,hex,pixels,share,used\n0,108,81,69,#6c5145,0,0.00,no\n"));
    assert!(text.ends_with(",yes\n") && !text.contains('\r'));
}

#[test]
fn the_object_tells_what_the_sheet_tells() {
    let folder = Folder::new("json");
    let path = folder.path("order.json");
    let name = OsStr::from_bytes(b"a \"b\" c\\d\ne\xfff, \xc3\xa4.ppm");
    let picture = Path::new(&folder.path("")).join(name);
    fs::copy(RUG, &picture).unwrap();
    let mut command = program(&["shades", "7", "--json", &path]);
    let output = command.arg(&picture).stdin(Stdio::null()).output().unwrap();
    assert_eq!((said(&output), output.status.code()), ("", Some(0)));
    let sheet = printed(&output);

    let mut lines = vec!["picture: a \"b\" c\\d\u{fffd}e\u{fffd}f, ä.ppm".to_string()];
    assert_eq!(lines[0], format!("picture: {}", figure(sheet, "picture")));
    for name in ["width", "height", "pixels", "colours"] {
        lines.push(format!("{name}: {}", figure(sheet, name)));
    }
    assert_eq!(figure(sheet, "average colour"), "108  81  69  #6c5145");
    lines.push(format!("average: {}", figure(sheet, "average colour")));
    assert_eq!(figure(sheet, "shades"), "6 of 7 shades in use");
    lines.extend(["shades: 7", "in_use: 6", "wanted_in_use: None", "limit: 100", "jancey: False"].map(String::from));
    lines.push(format!("rounds: {}", figure(sheet, "rounds")));
    assert_eq!(figure(sheet, "settled"), "yes");
    lines.extend(["settled: True".into(), "distances: 302".into(), "final_total: 21345408".into()]);
    lines.push(format!("error: {}", figure(sheet, "error")));
    lines.push(format!("mean_square_error: {}", figure(sheet, "mean square error")));
    let version = run(&["--version"], b"");
    let made = printed(&version).replacen("kohlenfloh", "version", 1);
    lines.extend(made.lines().map(|line| line.replacen(' ', ": ", 1)));
    for shade in shades_of(sheet) {
        lines.push("shade red green blue hex pixels share used".into());
        lines.push(line_of(&shade, ["True", "False"]));
    }
    assert_eq!(python(READ_JSON, &path), lines);
}

#[test]
fn the_object_tells_the_limit_in_force() {
    for (limit, lines) in [
        ("0", "  \"limit\": 100,\n  \"jancey\": false,\n  \"rounds\": 2,\n  \"settled\": true,\n"),
        ("1", "  \"limit\": 1,\n  \"jancey\": false,\n  \"rounds\": 1,\n  \"settled\": false,\n"),
        ("200", "  \"limit\": 200,\n  \"jancey\": false,\n  \"rounds\": 2,\n  \"settled\": true,\n"),
    ] {
        let output = run(&["shades", "7", RUG, "--limit", limit, "--json", "-"], b"");
        assert!(printed(&output).contains(lines), "{}", printed(&output));
    }
}

#[test]
fn the_object_tells_the_average_colour() {
    let sheet_h = [b"P6 32 1 255 ".to_vec(), [10, 0, 0].repeat(17), [11, 0, 0].repeat(15)].concat();
    for (picture, line) in [
        (b"P6 2 1 255 \0\0\xff\x01\0\xff".as_slice(), r##"{"red": 1, "green": 0, "blue": 255, "hex": "#0100ff"}"##),
        (&sheet_h, r##"{"red": 10, "green": 0, "blue": 0, "hex": "#0a0000"}"##),
    ] {
        let output = run(&["shades", "1", "--json", "-"], picture);
        assert!(printed(&output).contains(&format!("\n  \"average\": {line},\n")), "{}", printed(&output));
    }
}

#[test]
fn standard_output_has_one_output_alone() {
    let folder = Folder::new("alone");
    for option in OPTIONS {
        let (file, other) = (folder.path(option), folder.path("other"));
        let sheet = run(&["shades", "6", RUG, option, &file], b"");
        assert!(printed(&sheet).starts_with("picture            rug.ppm\n"));
        let second = if option == "--csv" { "--json" } else { "--csv" };
        for arguments in [[option, "-", second, &other].as_slice(), &[&format!("{option}=-")]] {
            let output = program(&["shades", "6", RUG]).args(arguments).stdin(Stdio::null()).output().unwrap();
            assert_eq!((said(&output), output.status.code()), ("", Some(0)));
            assert!(output.stdout == folder.read(option), "{option}");
        }
    }
    assert!(!fs::exists("-").unwrap());
}

#[test]
fn a_reader_of_an_output_that_goes_away_is_no_failure() {
    let mut child = program(&["shades", "6", RUG, "--preview", "-"]).spawn().unwrap();
    drop(child.stdout.take());
    let output = child.wait_with_output().unwrap();
    assert_eq!((said(&output), output.status.code()), ("", Some(0)));
}

#[test]
fn the_help_tells_of_every_option_and_of_what_is_refused() {
    let (help, usage) = (run(&["--help"], b""), run(&["shades"], b""));
    let usage = said(&usage);
    for option in OPTIONS {
        assert!(usage.contains(&format!("[{option} FILE]")), "{option}");
        assert!(printed(&help).contains(&format!("\n  {option} FILE ")), "{option}");
    }
    assert!(usage.contains("[--limit N]") && usage.contains("[--jancey]"));
    assert!([printed(&help), usage].iter().all(|text| text.lines().all(|line| line.len() <= 80)));
    let words = printed(&help).split_whitespace().collect::<Vec<_>>().join(" ");
    for part in [
        "--limit N at most N rounds",
        "shades step past the mean of their group, nine fifths of the way",
        "Runs of both kinds end settled or at the limit, and can find different shades",
        "limit (the one in force), jancey (true or false), rounds",
        "--help, -h",
        "--version, -V",
        "as in --limit=3",
        "What follows -- is no option.",
        "`-` as FILE means standard output.",
        "all of them or none",
        "An output that is the picture is refused",
        "two outputs that are one file",
        "A file that is not writable is not replaced.",
        "shade,red,green,blue,hex,pixels,share,used",
        "picture, width, height, pixels, colours, average (an object with red, green, blue and hex), shades, in_use",
        "the average colour is that of the picture: in each channel the level nearest to the mean of all pixels",
        "The levels of a shade are rounded alike, once, from the mean of the pixels whose colours the last round put",
        "rounds, settled, distances",
        "final_total, error, mean_square_error",
        "version, toolchain, proof and sources",
        "64 the command line is wrong",
        "66 the picture cannot be read",
        "73 an output cannot be written",
    ] {
        assert!(words.contains(part), "{part}");
    }
}
