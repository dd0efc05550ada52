//! The command where it fails: exit statuses, words, and files left as they were.
mod program;

use std::fs::{self, File};

use program::{assert_wrong, printed, program, run, said, too_many_colours, Folder, OUTPUTS, RUG};

/// What is said of a header with a number of twenty digits.
const LONG: &str = "12 BAD HEADER: the header tells 1 by 18446744073709551617 pixels and the depth 255; its numbers";

/// What is said of a raster of five bytes for two pixels.
const RASTER: &str = "15 BAD RASTER: the raster should have 6 bytes, for 2 by 1 pixels, and 5 follow the header\n";

/// Arguments and an input, and the status and words by which they are refused.
type Refused<'a> = (&'static [&'static str], &'a [u8], i32, &'static str);

/// What is refused of the rug, of a picture with too many colours, and of inputs that are no picture.
fn refused<'a>(rug: &'a [u8], many: &'a [u8]) -> [Refused<'a>; 19] {
    [
        (&["6"], many, 3, "3 FULL: the picture has more than 1,048,576 colours; 1,048,576 of its pixels"),
        (&["0"], rug, 4, "4 BAD COUNT: 0 shades are wanted, and there can be 1 to 64"),
        (&["65"], rug, 4, "4 BAD COUNT: 65 shades"),
        (&["99999999999999999999999"], rug, 4, "4 BAD COUNT"),
        (&["43"], rug, 5, "5 FEW COLOURS: 43 shades are wanted, and the picture has 42 colours; ask for 42 at most"),
        (&["6", "--limit", "201"], rug, 6, "6 BAD LIMIT: a limit of 201 rounds is wanted"),
        (&["6"], b"", 12, "12 BAD HEADER: the input is empty"),
        (&["6"], b"a letter", 12, "12 BAD HEADER: the byte at offset 0 cannot stand there"),
        (&["6"], b"P65 1 1 255 abc", 12, "12 BAD HEADER: the byte at offset 2 cannot stand there"),
        (&["6"], b"P6\n# drawn\n", 12, "12 BAD HEADER: the input ends at offset 11, inside what should be the header"),
        (&["6"], b"P6 64 96 255", 12, "12 BAD HEADER: the input ends at offset 12"),
        (&["6"], b"P6 1 18446744073709551617 255 ", 12, LONG),
        (&["6"], b"P6 16384 1025 255 ", 13, "13 BAD SIZE: the picture has 16384 by 1025 pixels; a side can be 1 to"),
        (&["6"], b"P6 0 99999 255 ", 13, "13 BAD SIZE: the picture has 0 by 99999 pixels; a side can be 1 to 16,384"),
        (&["6"], b"P6 1 1 65535 abcdef", 14, "14 BAD DEPTH: the depth is 65535, 16 bits a level, and it must be 255. "),
        (&["6"], b"P6 1 1 15 abc", 14, "14 BAD DEPTH: the depth is 15, and it must be 255. With netpbm"),
        (&["6"], b"P6 1 1 65536 abcdef", 14, "14 BAD DEPTH: the depth is 65536, and it must be 255\n"),
        (&["6"], b"P6 2 1 255 abcde", 15, RASTER),
        (&["0", "--limit", "999"], b"P6 2 1 255 abcdefg", 15, "15 BAD RASTER: the raster should have 6 bytes"),
    ]
}

#[test]
fn a_refusal_is_told_and_touches_no_file() {
    let rug = fs::read(RUG).unwrap();
    for (arguments, input, status, words) in refused(&rug, &too_many_colours()) {
        let folder = Folder::new("refused");
        OUTPUTS.iter().for_each(|(_, name)| drop(folder.write(name, b"former")));
        let arguments: Vec<String> =
            ["shades"].iter().chain(arguments).map(|text| text.to_string()).chain(folder.all_outputs()).collect();
        let output = run(&arguments, input);
        assert_eq!(output.status.code(), Some(status), "{arguments:?}");
        let told = said(&output);
        assert!(told.starts_with(&format!("kohlenfloh: standard input: refused {words}")), "{told}");
        // A remedy stands on a line of its own.
        assert_eq!((printed(&output), told.lines().count()), ("", 1 + told.matches(" installed, ").count()));
        assert_eq!(folder.names(), OUTPUTS.map(|(_, name)| name));
        assert!(OUTPUTS.iter().all(|(_, name)| folder.read(name) == b"former"));
    }
}

#[test]
fn an_input_of_64_mib_is_read_and_a_longer_one_is_refused() {
    let rest = b"1 1 255 abc";
    let mut input = b"P6".to_vec();
    input.resize((64 << 20) - rest.len(), b' ');
    input.extend(rest);
    let output = run(&["shades", "1"], &input);
    assert_eq!(output.status.code(), Some(0), "{}", said(&output));
    input.push(b'd');
    let output = run(&["shades", "1"], &input);
    assert_eq!(output.status.code(), Some(13));
    assert_eq!(said(&output), "kohlenfloh: standard input: refused 13 BAD SIZE: the input is longer than 64 MiB\n");
}

#[test]
fn a_wrong_command_line_is_64() {
    let cases: [(&[&str], &str); 14] = [
        (&[], "no command is given"),
        (&["shade", "6"], "there is no command shade"),
        (&["shades"], "K, the number of shades, is missing"),
        (&["shades", "six"], "K, the number of shades, is not a whole number: six"),
        (&["shades", "+6"], "K, the number of shades, is not a whole number: +6"),
        (&["shades", ""], "K, the number of shades, is not a whole number: "),
        (&["shades", "-6"], "there is no option -6"),
        (&["shades", "6", "--dither"], "there is no option --dither"),
        (&["shades", "6", "--limit", "1.5"], "--limit wants a whole number of rounds"),
        (&["shades", "6", "--limit"], "nothing follows --limit"),
        (&["shades", "6", "--limit", "1", "--limit", "1"], "--limit is given twice"),
        (&["shades", "6", "--index", ""], "--index wants the name of a file"),
        (&["shades", "6", "--index", "x", "--sheet", "x"], "two outputs cannot both be x"),
        (&["shades", "6", "one.ppm", "two.ppm"], "one picture is read, and two.ppm is one too many"),
    ];
    cases.iter().for_each(|(arguments, words)| assert_wrong(arguments, words));
}

#[test]
fn a_picture_that_cannot_be_read_is_66() {
    let folder = Folder::new("unreadable");
    for path in [folder.path("none.ppm"), folder.path(".")] {
        let output = run(&["shades", "6", &path, "--index", &folder.path("index.pgm")], b"");
        assert_eq!((printed(&output), output.status.code()), ("", Some(66)));
        assert!(said(&output).starts_with(&format!("kohlenfloh: cannot read {path}: ")), "{}", said(&output));
        assert!(folder.names().is_empty());
    }
}

#[test]
fn a_file_that_cannot_be_written_is_73() {
    let folder = Folder::new("unwritable");
    let index = folder.write("index.pgm", b"former");
    for path in [folder.path("none/preview.ppm"), folder.path(".")] {
        let output = run(&["shades", "6", RUG, "--index", &index, "--preview", &path], b"");
        assert_eq!((printed(&output), output.status.code()), ("", Some(73)));
        let told = said(&output);
        assert!(told.starts_with(&format!("kohlenfloh: cannot write {path}: ")), "{told}");
        assert!(told.contains("directory"), "{told}");
        assert_eq!((folder.names(), folder.read("index.pgm")), (vec!["index.pgm".into()], b"former".to_vec()));
    }
}

#[cfg(target_os = "linux")]
#[test]
fn a_device_that_takes_nothing_is_73() {
    use std::os::unix::fs::FileTypeExt;
    let output = run(&["shades", "6", RUG, "--index", "/dev/full"], b"");
    assert_eq!((printed(&output), output.status.code()), ("", Some(73)));
    assert!(said(&output).starts_with("kohlenfloh: cannot write /dev/full: No space left"), "{}", said(&output));
    assert!(fs::metadata("/dev/full").unwrap().file_type().is_char_device());

    let full = File::options().write(true).open("/dev/full").unwrap();
    let output = program(&["shades", "6", RUG]).stdout(full).output().unwrap();
    assert_eq!(output.status.code(), Some(73));
    assert!(said(&output).starts_with("kohlenfloh: cannot write standard output: No space left"), "{}", said(&output));
}
