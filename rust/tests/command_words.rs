//! What the command says of a picture that is refused, and how it can be read all the same. Each remedy is run as it is
//! told, where its programs are installed.
mod program;
mod tools;

use std::path::Path;

use program::{printed, program, run, said, too_many_colours, Folder, RUG};
use tools::{installed, shell};

/// Files that programs make of the rug, in colours and in grey, shallow and deep: the programs, the file's name, what
/// it is, and the programs that make it a picture that is read.
const WRITTEN: [(&str, &str, &str, &str); 24] = [
    ("pnmtopng -force", "rgb.png", "a PNG picture", "pngtopnm rgb.png"),
    (ALPHA_PNG, "alpha.png", "a PNG picture", "pngtopnm alpha.png"),
    ("pnmtopng", "palette.png", "a PNG picture", "pngtopnm palette.png | ppmtoppm | pamdepth 255"),
    ("ppmtopgm | pnmtopng", "grey.png", "a PNG picture", "pngtopnm grey.png | ppmtoppm | pamdepth 255"),
    (BITS_PNG, "bits.png", "a PNG picture", "pngtopnm bits.png | ppmtoppm | pamdepth 255"),
    (DEEP_PNG, "it's deep.png", "a PNG picture", r"pngtopnm 'it'\''s deep.png' | ppmtoppm | pamdepth 255"),
    ("pnmtojpeg", "rug.jpg", "a JPEG picture", "jpegtopnm rug.jpg | ppmtoppm"),
    ("ppmtopgm | pnmtojpeg", "grey.jpg", "a JPEG picture", "jpegtopnm grey.jpg | ppmtoppm"),
    ("ppmtogif", "rug.gif", "a GIF picture", "giftopnm rug.gif | ppmtoppm"),
    ("ppmtopgm | ppmtogif", "grey.gif", "a GIF picture", "giftopnm grey.gif | ppmtoppm"),
    ("ppmtobmp", "rug.bmp", "a BMP picture", "bmptopnm rug.bmp | ppmtoppm"),
    ("ppmtopgm | ppmtobmp", "grey.bmp", "a BMP picture", "bmptopnm grey.bmp | ppmtoppm"),
    ("pnmtotiff", "rug.tif", "a TIFF picture", "tifftopnm rug.tif | ppmtoppm | pamdepth 255"),
    ("ppmtopgm | pnmtotiff", "grey.tif", "a TIFF picture", "tifftopnm grey.tif | ppmtoppm | pamdepth 255"),
    (DEEP_TIFF, "deep.tif", "a TIFF picture", "tifftopnm deep.tif | ppmtoppm | pamdepth 255"),
    ("cwebp -quiet -o - -- -", "rug.webp", "a WebP picture", "dwebp -quiet -ppm -o - -- rug.webp"),
    (PLAIN_BITS, "1.pbm", "a P1 picture", "pamdepth 255 1.pbm | ppmtoppm"),
    ("ppmtopgm | pamdepth 15 | pnmtoplainpnm", "2.pgm", "a P2 picture", "pamdepth 255 2.pgm | ppmtoppm"),
    ("pamdepth 15 | pnmtoplainpnm", "3.ppm", "a P3 picture", "pamdepth 255 3.ppm"),
    (BITS, "4.pbm", "a P4 picture", "pamdepth 255 4.pbm | ppmtoppm"),
    ("ppmtopgm | pamdepth 65535", "5.pgm", "a P5 picture", "pamdepth 255 5.pgm | ppmtoppm"),
    ("pamtopam", "rug.pam", "a PAM picture", "pamdepth 255 rug.pam | pamtopnm | ppmtoppm"),
    ("ppmtopgm | pamtopam", "grey.pam", "a PAM picture", "pamdepth 255 grey.pam | pamtopnm | ppmtoppm"),
    ("ppmtopgm | pamthreshold -simple", "bits.pam", "a PAM picture", "pamdepth 255 bits.pam | pamtopnm | ppmtoppm"),
];

/// The rug in black and white, as programs make it.
const BITS: &str = "ppmtopgm | pamthreshold -simple | pamtopnm";
/// The same in digits.
const PLAIN_BITS: &str = "ppmtopgm | pamthreshold -simple | pamtopnm | pnmtoplainpnm";
/// The same as a PNG.
const BITS_PNG: &str = "ppmtopgm | pamthreshold -simple | pamtopnm | pnmtopng";
/// The rug as a PNG with a fourth level for what shows through.
const ALPHA_PNG: &str = "pamchannel -tupletype RGB_ALPHA 0 1 2 0 | pamtopng";
/// The rug as a PNG of 16 bits a level.
const DEEP_PNG: &str = "pamdepth 65535 | pnmtopng -force";
/// The rug as a TIFF of 16 bits a level.
const DEEP_TIFF: &str = "pamdepth 65535 | pnmtotiff -truecolor";

/// A TIFF picture whose numbers begin with their highest byte: 2 by 1 pixels, black and white.
const TIFF: &[u8] = b"MM\0*\0\0\0\x08\0\x07\
    \x01\0\0\x04\0\0\0\x01\0\0\0\x02\
    \x01\x01\0\x04\0\0\0\x01\0\0\0\x01\
    \x01\x02\0\x03\0\0\0\x01\0\x08\0\0\
    \x01\x03\0\x03\0\0\0\x01\0\x01\0\0\
    \x01\x06\0\x03\0\0\0\x01\0\x01\0\0\
    \x01\x11\0\x04\0\0\0\x01\0\0\0\x62\
    \x01\x17\0\x04\0\0\0\x01\0\0\0\x02\
    \0\0\0\0\0\xff";

/// A PAM picture with a fourth level for what shows through: 2 by 1 pixels.
const ALPHA: &[u8] = b"P7\nWIDTH 2\nHEIGHT 1\nDEPTH 4\nMAXVAL 255\nTUPLTYPE RGB_ALPHA\nENDHDR\nabcdefgh";

/// A file is refused with a status and words, and the remedy on the line after them leads to a sheet; the file is named
/// in it, or piped where it comes from standard input.
fn remedy_works(folder: &Folder, file: &str, status: i32, words: &str, remedy: &str) {
    let place = folder.path(".");
    let named = program(&["shades", "2", file]).current_dir(&place).output().unwrap();
    let piped = run(&["shades", "2"], &folder.read(file));
    folder.write("piped", &folder.read(file));
    for (output, name, before) in [(named, file, ""), (piped, "standard input", "... | ")] {
        assert_eq!((printed(&output), output.status.code()), ("", Some(status)), "{file}");
        let (why, line) = said(&output).split_once('\n').unwrap();
        assert!(why.starts_with(&format!("kohlenfloh: {name}: refused {status} {words}")), "{why}");
        assert!(line.starts_with(&format!("    {before}")) && line.ends_with(" | kohlenfloh shades 2\n"), "{line}");
        if before.is_empty() {
            assert_eq!(line, format!("    {remedy} | kohlenfloh shades 2\n"));
        }
        if installed(&[remedy]) {
            let sheet = shell(Path::new(&place), &line.replace("...", "cat piped"));
            assert_eq!(sheet.status.code(), Some(0), "{line}{}", said(&sheet));
            assert!(printed(&sheet).starts_with("picture            standard input\n"), "{line}");
        }
    }
}

#[test]
fn a_file_that_programs_write_is_named_and_read_by_the_remedy() {
    let folder = Folder::new("written");
    for (writers, file, kind, remedy) in WRITTEN {
        if installed(&[writers]) {
            let written = shell(Path::new("."), &format!("cat '{RUG}' | {writers}"));
            assert!(written.status.success(), "{writers}: {}", said(&written));
            folder.write(file, &written.stdout);
            remedy_works(&folder, file, 12, &format!("BAD HEADER: this is {kind}, "), remedy);
        }
    }
}

#[test]
fn a_file_that_no_program_here_writes_is_named_and_read_by_the_remedy() {
    let folder = Folder::new("bytes");
    let many = too_many_colours();
    let cases: [(&[u8], &str, i32, &str, &str); 6] = [
        (TIFF, "high.tif", 12, "BAD HEADER: this is a TIFF", "tifftopnm high.tif | ppmtoppm | pamdepth 255"),
        (ALPHA, "a.pam", 12, "BAD HEADER: this is a PAM", "pamdepth 255 a.pam | pamtopnm | ppmtoppm"),
        (b"P6\n2 1\n255# drawn\nabcdef", "a b.ppm", 12, "BAD HEADER: a comment stands", "pamdepth 255 'a b.ppm'"),
        (b"P6 2 1 65535 abcdefghijkl", "deep.ppm", 14, "BAD DEPTH: the depth is 65535, 16", "pamdepth 255 deep.ppm"),
        (b"P6 2 1 7 \0\0\0\x07\x07\x07", "flat.ppm", 14, "BAD DEPTH: the depth is 7, ", "pamdepth 255 flat.ppm"),
        (&many, "many.ppm", 3, "FULL: the picture has more", "pamdepth 100 many.ppm | pamdepth 255"),
    ];
    for (bytes, file, status, words, remedy) in cases {
        folder.write(file, bytes);
        remedy_works(&folder, file, status, words, remedy);
    }
}

#[test]
fn a_picture_without_a_name_has_a_remedy_without_one() {
    let folder = Folder::new("nameless");
    let png = b"\x89PNG\r\n\x1a\n\0\0\0\x0dIHDR\0\0\0\x02\0\0\0\x01\x08\x02\0\0\0";
    let remedy = "... | pngtopnm | kohlenfloh shades 6\n";
    assert!(
        said(&run(&["shades", "6"], png)).ends_with(&format!("With netpbm installed, this reads it:\n    {remedy}"))
    );
    let path = folder.write("two\nlines.png", png);
    assert!(said(&run(&["shades", "6", &path], b"")).ends_with(&format!(":\n    {remedy}")));
    let webp = run(&["shades", "6"], b"RIFF\0\0\0\0WEBP");
    let remedy = "... | dwebp -quiet -ppm -o - -- - | kohlenfloh shades 6\n";
    assert!(said(&webp).ends_with(&format!("With webp installed, this reads it:\n    {remedy}")));
}

#[test]
fn shades_that_are_not_settled_are_told_how_to_go_on() {
    let picture = b"P6 4 1 255 \0\0\0\0\0\0\0\0\0\x0a\0\0";
    let output = run(&["shades", "2", "--limit", "1"], picture);
    let words = "\nsettled            no: more rounds may lower the error, ask for them by --limit 200\n";
    assert!(printed(&output).contains(words), "{}", printed(&output));
}

#[test]
fn a_share_that_is_there_is_never_told_as_nothing() {
    let mut picture = b"P6 200 100 255\n".to_vec();
    picture.resize(picture.len() + 3 * 19_999, 0);
    picture.extend([255, 255, 255]);
    let sheet = run(&["shades", "2"], &picture);
    assert!(printed(&sheet).contains("\nshades             2 of 2 shades in use\n"));
    assert!(printed(&sheet).contains("\n    1  255  255  255  #ffffff         1    <0.01\n"), "{}", printed(&sheet));
}
