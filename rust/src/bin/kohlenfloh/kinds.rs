//! What a file is that is no P6 picture, by its first bytes, and the programs that make one of it.
use crate::remedy::Way;

/// A kind of file.
pub struct Kind {
    /// What it is called.
    pub name: &'static str,
    /// The bytes by which it is known, each with the offset where they stand.
    marks: &'static [(usize, &'static [u8])],
    /// How a P6 picture of depth 255 is made of it.
    pub way: Way,
}

/// The first bytes of every PNG.
const PNG: (usize, &[u8]) = (0, b"\x89PNG\r\n\x1a\n");
/// In a PNG: 8 bits a level, and pixels of R, G, B.
const COLOURS: (usize, &[u8]) = (24, b"\x08\x02");
/// The same with a fourth level for what shows through.
const COLOURS_AND_ALPHA: (usize, &[u8]) = (24, b"\x08\x06");

/// The kinds, each before those that have fewer marks. Where a picture may be grey, ppmtoppm makes its levels colours;
/// where it may have another depth, pamdepth makes it 255.
const KINDS: [Kind; 15] = [
    kind("a PNG picture", &[PNG, COLOURS], Way::netpbm("pngtopnm", "")),
    kind("a PNG picture", &[PNG, COLOURS_AND_ALPHA], Way::netpbm("pngtopnm", "")),
    kind("a PNG picture", &[PNG], Way::netpbm("pngtopnm", " | ppmtoppm | pamdepth 255")),
    kind("a JPEG picture", &[(0, b"\xff\xd8\xff")], Way::netpbm("jpegtopnm", " | ppmtoppm")),
    kind("a GIF picture", &[(0, b"GIF8")], Way::netpbm("giftopnm", " | ppmtoppm")),
    kind("a BMP picture", &[(0, b"BM"), (6, b"\0\0\0\0")], Way::netpbm("bmptopnm", " | ppmtoppm")),
    kind("a TIFF picture", &[(0, b"II*\0")], Way::netpbm("tifftopnm", " | ppmtoppm | pamdepth 255")),
    kind("a TIFF picture", &[(0, b"MM\0*")], Way::netpbm("tifftopnm", " | ppmtoppm | pamdepth 255")),
    kind("a WebP picture", &[(0, b"RIFF"), (8, b"WEBP")], Way::WEBP),
    kind("a P1 picture, black and white in digits", &[(0, b"P1")], Way::netpbm("pamdepth 255", " | ppmtoppm")),
    kind("a P2 picture, grey levels in digits", &[(0, b"P2")], Way::netpbm("pamdepth 255", " | ppmtoppm")),
    kind("a P3 picture, colours in digits", &[(0, b"P3")], Way::DEPTH_255),
    kind("a P4 picture, black and white", &[(0, b"P4")], Way::netpbm("pamdepth 255", " | ppmtoppm")),
    kind("a P5 picture, grey levels", &[(0, b"P5")], Way::netpbm("pamdepth 255", " | ppmtoppm")),
    kind("a PAM picture", &[(0, b"P7")], Way::netpbm("pamdepth 255", " | pamtopnm | ppmtoppm")),
];

/// A row of the kinds.
const fn kind(name: &'static str, marks: &'static [(usize, &'static [u8])], way: Way) -> Kind {
    Kind { name, marks, way }
}

/// The kind of an input, if it is one of these.
pub fn of(input: &[u8]) -> Option<&'static Kind> {
    let stands = |(offset, bytes): &(usize, &[u8])| input.get(*offset..).is_some_and(|rest| rest.starts_with(bytes));
    KINDS.iter().find(|kind| kind.marks.iter().all(stands))
}

#[cfg(test)]
mod tests {
    use super::of;

    #[test]
    fn a_kind_is_known_by_all_its_marks() {
        let name = |input: &[u8]| of(input).map(|kind| kind.name);
        assert_eq!(name(b"\x89PNG\r\n\x1a\n"), Some("a PNG picture"));
        assert_eq!(name(b"\xff\xd8\xff\xe0"), Some("a JPEG picture"));
        assert_eq!(name(b"GIF89a"), Some("a GIF picture"));
        assert_eq!(name(b"BM1234\0\0\0\0"), Some("a BMP picture"));
        assert_eq!(name(b"II*\0"), Some("a TIFF picture"));
        assert_eq!(name(b"MM\0*"), Some("a TIFF picture"));
        assert_eq!(name(b"RIFF1234WEBP"), Some("a WebP picture"));
        assert_eq!(name(b"P5 1 1 255 a"), Some("a P5 picture, grey levels"));
        for input in [b"".as_slice(), b"P6", b"RIFF1234WAVE", b"RIFF", b"BM and more", b"P8", b"\x89PNG"] {
            assert_eq!(name(input), None);
        }
    }
}
