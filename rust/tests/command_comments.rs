//! The command on pictures with comments in their header: the sheet is that of the same picture without them, and a
//! comment that cannot stand, or never ends, is told in words.
mod program;
mod tools;

use std::path::Path;

use program::{printed, run, said, Folder};
use tools::{installed, shell};

/// Six pixels, the raster of the pictures here: it begins with `#`, and has line ends in it.
const RASTER: &[u8] = b"#\n\r\x10\x20\x30\x10\x20\x31\xff\x80\x00\xfe\x80\x00#\r\n";

/// Headers of 3 by 2 pixels with comments: as GIMP writes them from version 2.10 on and before it, XV, IrfanView, and
/// ImageMagick where a picture has a comment of its own; in the places that Netpbm's pages allow; with other line ends;
/// and with bytes that are no text.
const HEADERS: [&[u8]; 11] = [
    b"P6\n# Created by GIMP version 2.10.34 PNM plug-in\n3 2\n255\n",
    b"P6\n# CREATOR: GIMP PNM Filter Version 1.1\n3 2\n255\n",
    b"P6\n# CREATOR: XV Version 3.10a  Rev: 12/29/94\n3 2\n255\n",
    b"P6\n# Created by IrfanView\n3 2\n255\n",
    b"P6\n#rug no. 7, ground in 3 2 255\n#second line\n3 2\n255\n",
    b"P6\n# comment\n3 2\n# another\n255\n",
    b"P6 # the letters\n3 # the width\n2 # the height\n255\n",
    b"P6#\n3#\n2#\n255\n",
    b"P6\r\n# Created by GIMP version 2.10.34 PNM plug-in\r\n3 2\r\n255\n",
    b"P6\r# Created by IrfanView\r3 2\r255\r",
    b"P6\n# gr\xfcn \xc3\xbc \0 \xff\n3 2\n255\n",
];

/// The same picture without comments.
fn plain() -> Vec<u8> {
    [b"P6\n3 2\n255\n", RASTER].concat()
}

/// What the command prints of a picture in a file of one name.
fn printed_of(folder: &Folder, arguments: &[&str], picture: &[u8]) -> Vec<u8> {
    let path = folder.write("drawing.ppm", picture);
    let output = run(&[&["shades"], arguments, &[path.as_str()]].concat(), b"");
    assert_eq!((said(&output), output.status.code()), ("", Some(0)), "{}", picture.escape_ascii());
    output.stdout
}

#[test]
fn a_picture_of_a_drawing_program_gives_the_sheet_of_its_pixels() {
    let folder = Folder::new("programs");
    for arguments in [["3", "--limit=9"], ["--in-use", "4"]] {
        let sheet = printed_of(&folder, &arguments, &plain());
        assert!(sheet.starts_with(b"picture            drawing.ppm\nwidth              3\nheight             2\n"));
        for header in HEADERS {
            let with_comments = printed_of(&folder, &arguments, &[header, RASTER].concat());
            assert!(with_comments == sheet, "{}", header.escape_ascii());
        }
    }
}

#[test]
fn every_output_of_a_picture_with_comments_is_that_without() {
    let folder = Folder::new("outputs");
    for option in ["--index", "--palette", "--preview", "--sheet", "--csv", "--json"] {
        let arguments = ["3", option, "-"];
        let without = printed_of(&folder, &arguments, &plain());
        assert!(!without.is_empty(), "{option}");
        for header in HEADERS {
            let with_comments = printed_of(&folder, &arguments, &[header, RASTER].concat());
            assert!(with_comments == without, "{option} {}", header.escape_ascii());
        }
    }
}

#[test]
fn netpbm_reads_the_same_picture() {
    let folder = Folder::new("peers");
    for program in ["pamdepth 255", "pamtopnm"] {
        if installed(&[program]) {
            for header in HEADERS {
                folder.write("drawing.ppm", &[header, RASTER].concat());
                let made = shell(Path::new(&folder.path(".")), &format!("{program} drawing.ppm"));
                assert_eq!((said(&made), made.status.code()), ("", Some(0)), "{program}");
                assert!(made.stdout == plain(), "{program} {}", header.escape_ascii());
            }
        }
    }
}

/// What is said of a picture on standard input that is refused, from the refusal's number on.
fn told(picture: &[u8]) -> String {
    let output = run(&["shades", "3"], picture);
    assert_eq!(printed(&output), "");
    let words = said(&output).strip_prefix("kohlenfloh: standard input: refused ").unwrap();
    let number: i32 = words.split(' ').next().unwrap().parse().unwrap();
    assert_eq!(output.status.code(), Some(number), "{words}");
    words.into()
}

#[test]
fn a_comment_before_or_inside_the_letters_is_told() {
    let words = "and none can stand before or inside the letters P6, with which a picture begins\n";
    for (picture, offset) in [(b"# drawn\nP6 1 1 255 abc".as_slice(), 0), (b"P# drawn\n6 1 1 255 abc", 1), (b"#", 0)] {
        assert_eq!(told(picture), format!("12 BAD HEADER: a comment stands at offset {offset}, {words}"));
    }
}

#[test]
fn a_comment_behind_the_depth_is_told_and_what_leaves_it_out() {
    let words = "behind the depth, and comments can stand before it only";
    let advice = "With netpbm installed, this leaves it out:\n    ... | pamdepth 255 | kohlenfloh shades 3\n";
    for (picture, offset) in [(b"P6 1 1 255#\nabc".as_slice(), 10), (b"P6 # drawn\n1 1 255# drawn\rabc", 18)] {
        assert_eq!(told(picture), format!("12 BAD HEADER: a comment stands at offset {offset}, {words}. {advice}"));
    }
    // Netpbm does not read these either, or makes of them what is refused all the same.
    for (picture, offset) in [
        (b"P6 1 1 255# drawn".as_slice(), 10),
        (b"P6 1 1 255# drawn\nab", 10),
        (b"P6 1 1 255# drawn\nabcd", 10),
        (b"P6 0 1 255# drawn\n", 10),
        (b"P6 1 1 0# drawn\nabc", 8),
        (b"P6 16385 1 255#\nabc", 14),
    ] {
        assert_eq!(told(picture), format!("12 BAD HEADER: a comment stands at offset {offset}, {words}\n"));
    }
}

#[test]
fn a_comment_that_never_ends_is_told_with_its_place() {
    for (picture, end, place) in [
        (b"P6#".as_slice(), 3, 2),
        (b"P6\n# drawn", 10, 3),
        (b"P6\n# drawn\n# by # hand", 22, 11),
        (b"P6\r# drawn\r3 2# 255", 19, 14),
        (b"P6 3 2 # drawn by hand 255 abc", 30, 7),
    ] {
        let inside =
            format!("inside the comment that begins at offset {place}; a comment goes on to the end of its line\n");
        assert_eq!(told(picture), format!("12 BAD HEADER: the input ends at offset {end}, {inside}"));
    }
    for (picture, end) in [(b"P6\n# drawn\n3 2".as_slice(), 14), (b"P6# drawn\r", 10)] {
        let inside = "inside what should be the header of a P6 picture\n";
        assert_eq!(told(picture), format!("12 BAD HEADER: the input ends at offset {end}, {inside}"));
    }
}

#[test]
fn what_is_told_of_a_header_passes_over_its_comments() {
    for (picture, words) in [
        (
            b"P6# 1 1\n16384# 2\r1025#\n255 ".as_slice(),
            "13 BAD SIZE: the picture has 16384 by 1025 pixels; a side can be 1 to 16,384, and there can be 16,777,216 \
             pixels at most\n",
        ),
        (b"P6 # 7\n1# 8\n# 9\n1 65536 ", "14 BAD DEPTH: the depth is 65536, and it must be 255\n"),
        (
            b"P6\n# drawn\n1 1 # 255\n65535\nabcdef",
            "14 BAD DEPTH: the depth is 65535, 16 bits a level, and it must be 255. With netpbm installed, this makes \
             it so:\n    ... | pamdepth 255 | kohlenfloh shades 3\n",
        ),
        (
            b"P6\n# drawn\n3 # 9\r2\n#\n255\n#abc",
            "15 BAD RASTER: the raster should have 18 bytes, for 3 by 2 pixels, and 4 follow the header\n",
        ),
        (
            b"P6\n# drawn\n1 # 7 7\n123456 255 abc",
            "12 BAD HEADER: the header tells 1 by 123456 pixels and the depth 255; its numbers can have 5 digits at \
             most\n",
        ),
    ] {
        assert_eq!(told(picture), words);
    }
}
