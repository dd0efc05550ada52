//! The command line: options, their values, and how what it holds is told.
mod program;

use std::ffi::OsStr;
use std::fs;
use std::os::unix::ffi::OsStrExt;
use std::path::Path;
use std::process::{Output, Stdio};

use program::{assert_wrong, printed, program, run, said, Folder, RUG};

/// A picture of four pixels of two colours.
const SMALL: &[u8] = b"P6\n2 2\n255\n\0\0\0\0\0\0\0\0\0\x0a\0\0";

/// Its index picture for two shades.
const SMALL_INDEX: &[u8] = b"P5\n2 2\n255\n\0\0\0\x01";

/// Runs the program in a folder, without input.
fn run_in(folder: &Folder, arguments: &[&str]) -> Output {
    program(arguments).current_dir(folder.path("")).stdin(Stdio::null()).output().unwrap()
}

#[test]
fn a_value_may_stand_behind_an_equals_sign() {
    let folder = Folder::new("equals");
    folder.write("small.ppm", SMALL);
    let output = run_in(&folder, &["shades", "2", "small.ppm", "--limit=1", "--index=a=b.pgm"]);
    assert_eq!((said(&output), output.status.code()), ("", Some(0)));
    assert!(printed(&output).contains("\nrounds             1\n"));
    assert_eq!(folder.read("a=b.pgm"), SMALL_INDEX);
    assert_eq!(folder.names(), ["a=b.pgm", "small.ppm"]);
}

#[test]
fn a_word_that_could_be_an_option_is_a_file_only_behind_an_equals_sign() {
    let folder = Folder::new("dashes");
    folder.write("small.ppm", SMALL);
    let cases = [
        (
            "--index",
            "--sheet wants the name of a file, and --index is an option; write --sheet=--index if it is a file",
        ),
        ("-V", "--sheet wants the name of a file, and -V is an option; write --sheet=-V if it is a file"),
        ("-x", "--sheet wants the name of a file, and -x begins as options do; write --sheet=-x if it is a file"),
    ];
    for (value, words) in cases {
        let output = run_in(&folder, &["shades", "2", "--sheet", value, "small.ppm"]);
        assert_eq!((printed(&output), output.status.code()), ("", Some(64)));
        assert!(said(&output).starts_with(&format!("kohlenfloh: {words}\nusage: ")), "{}", said(&output));
        assert_eq!(folder.names(), ["small.ppm"]);
    }
    let output = run_in(&folder, &["shades", "2", "--index=--sheet", "small.ppm"]);
    assert_eq!((said(&output), output.status.code()), ("", Some(0)));
    assert_eq!(folder.read("--sheet"), SMALL_INDEX);
}

#[test]
fn after_two_dashes_nothing_is_an_option() {
    let folder = Folder::new("end");
    folder.write("--limit", SMALL);
    for arguments in [["shades", "2", "--", "--limit"], ["shades", "--", "2", "--limit"]] {
        let output = run_in(&folder, &arguments);
        assert_eq!((said(&output), output.status.code()), ("", Some(0)));
        assert!(printed(&output).starts_with("picture            --limit\n"));
    }
    let output = run(&["shades", "2", "--", "-"], SMALL);
    assert!(printed(&output).starts_with("picture            standard input\n"));
}

#[test]
fn a_wrong_value_is_64() {
    let cases: [(&[&str], &str); 12] = [
        (&["--help=x"], "--help takes no value"),
        (&["--version="], "--version takes no value"),
        (&["shades", "6", "--help=x"], "--help takes no value"),
        (&["shades", "6", "--version=x"], "--version takes no value"),
        (&["shades", "6", "-h=x"], "there is no option -h=x"),
        (&["shades", "6", "--dither=3"], "there is no option --dither"),
        (&["shades", "6", "--limit="], "--limit wants a whole number of rounds"),
        (&["shades", "6", "--limit=-1"], "--limit wants a whole number of rounds"),
        (&["shades", "6", "--limit", "1", "--limit=1"], "--limit is given twice"),
        (&["shades", "6", "--json="], "--json wants the name of a file"),
        (&["shades", "6", "--csv"], "nothing follows --csv"),
        (&["shades", "6", "--csv", "-", "--json=-"], "two outputs cannot both be standard output"),
    ];
    cases.iter().for_each(|(arguments, words)| assert_wrong(arguments, words));
}

#[test]
fn the_version_tells_what_made_the_library() {
    use kohlenfloh::made::{PROOF, SOURCES, TOOLCHAIN, VERSION};
    let version = format!("kohlenfloh {VERSION}\ntoolchain {TOOLCHAIN}\nproof {PROOF}\nsources {SOURCES}\n");
    for arguments in [["--version"].as_slice(), &["-V"], &["shades", "--version"], &["shades", "6", "-V"]] {
        let output = run(arguments, b"");
        assert_eq!((printed(&output), said(&output), output.status.code()), (version.as_str(), "", Some(0)));
    }
}

#[test]
fn a_number_is_told_as_it_was_typed() {
    let number = "12345678901234567890123456";
    for (arguments, status) in [(vec!["shades", number, RUG], 4), (vec!["shades", "6", RUG, "--limit", number], 6)] {
        let output = run(&arguments, b"");
        assert_eq!(output.status.code(), Some(status));
        assert!(said(&output).contains(&format!(" {number} ")), "{}", said(&output));
    }
}

#[test]
fn messages_name_the_picture_as_it_was_given() {
    let folder = Folder::new("given");
    fs::create_dir(folder.path("drawings")).unwrap();
    folder.write("drawings/rug.ppm", b"P6 2 1 255 abcde");
    for path in ["drawings/rug.ppm", "./drawings//rug.ppm"] {
        let output = run_in(&folder, &["shades", "6", path]);
        assert_eq!(output.status.code(), Some(15));
        let words = format!("kohlenfloh: {path}: refused 15 BAD RASTER: ");
        assert!(said(&output).starts_with(&words), "{}", said(&output));
    }
    fs::copy(RUG, folder.path("drawings/rug.ppm")).unwrap();
    let output = run_in(&folder, &["shades", "6", "drawings/rug.ppm"]);
    assert!(printed(&output).starts_with("picture            rug.ppm\n"));
}

#[test]
fn what_would_not_show_is_never_printed_raw() {
    let folder = Folder::new("shown");
    let strange = OsStr::from_bytes(b"a\n\x1b[31m\x7f\xc2\x9b\xff.ppm");
    let shown = "a\u{fffd}\u{fffd}[31m\u{fffd}\u{fffd}\u{fffd}.ppm";
    let path = Path::new(&folder.path("")).join(strange);
    let run = |before: &[&str], after: &[&str]| {
        let mut command = program(before);
        command.arg(strange).args(after).current_dir(folder.path("")).stdin(Stdio::null()).output().unwrap()
    };
    let assert_told = |before: &[&str], after: &[&str], status: i32, words: [&str; 2]| {
        let output = run(before, after);
        assert_eq!((printed(&output), output.status.code()), ("", Some(status)), "{words:?}");
        let told = said(&output);
        assert!(told.starts_with(&format!("kohlenfloh: {}", words.join(shown))), "{told}");
        assert!(told.chars().all(|character| character == '\n' || !character.is_control()), "{told}");
    };
    assert_told(&[], &[], 64, ["there is no command ", "\n"]);
    assert_told(&["shades"], &[], 64, ["K, the number of shades, is not a whole number: ", "\n"]);
    assert_told(&["shades", "6", "x"], &[], 64, ["one picture is read, and ", " is one too many\n"]);
    assert_told(&["shades", "6"], &[], 66, ["cannot read ", ": "]);
    fs::create_dir(&path).unwrap();
    assert_told(&["shades", "6", RUG, "--index"], &[], 73, ["cannot write ", ": "]);
    fs::remove_dir(&path).unwrap();
    fs::write(&path, b"no picture").unwrap();
    fs::hard_link(&path, folder.path("link")).unwrap();
    assert_told(&["shades", "6"], &[], 12, ["", ": refused 12 BAD HEADER: "]);
    assert_told(&["shades", "6"], &["--csv", "link"], 64, ["--csv would overwrite the picture ", "\n"]);
    assert_told(&["shades", "6", RUG, "--csv", "link", "--index"], &[], 64, ["two outputs cannot both be ", "\n"]);
    fs::write(&path, SMALL).unwrap();
    assert!(printed(&run(&["shades", "2"], &[])).starts_with(&format!("picture            {shown}\n")));
}

#[test]
fn an_option_that_would_not_show_is_never_printed_raw() {
    for (argument, words) in [("--a\x1b[2Jb", "--a\u{fffd}[2Jb"), ("-\r", "-\u{fffd}")] {
        let output = run(&["shades", "6", argument], b"");
        assert_eq!(output.status.code(), Some(64));
        assert!(said(&output).starts_with(&format!("kohlenfloh: there is no option {words}\n")), "{}", said(&output));
    }
}
