//! P6 pictures: headers with odd white space, comments and numbers, rasters of every length.
use crate::chance::Chance;

const WHITE: [u8; 4] = *b" \t\r\n";

/// Bytes of comments: some that would mean something outside, and none that ends a comment.
const IN_COMMENTS: [u8; 10] = *b"# \t\0\xff\x0bP615";

/// What comments end with: CR LF is a comment's end and one white byte more.
const LINE_ENDS: [&[u8]; 3] = [b"\n", b"\r", b"\r\n"];

/// A picture's bytes, and how many of them are the header.
pub struct Made {
    pub input: Vec<u8>,
    pub header: usize,
}

/// White bytes: mostly one, at times many.
fn white(chance: &mut Chance) -> Vec<u8> {
    let count = chance.one_of(&[1, 1, 1, 2, 3, 40]);
    (0..count).map(|_| chance.one_of(&WHITE)).collect()
}

/// A comment of so many bytes between its `#` and its line end.
fn comment(chance: &mut Chance, bytes: usize) -> Vec<u8> {
    let mut comment = vec![b'#'];
    comment.extend((0..bytes).map(|_| chance.one_of(&IN_COMMENTS)));
    comment.extend(chance.one_of(&LINE_ENDS));
    comment
}

/// A short comment, at times an empty one.
fn short_comment(chance: &mut Chance) -> Vec<u8> {
    let bytes = chance.one_of(&[0, 0, 1, 2, 5]);
    comment(chance, bytes)
}

/// What stands between two parts of a header: mostly white bytes; at times a few comments, with white bytes or without.
fn gap(chance: &mut Chance) -> Vec<u8> {
    if !chance.one_in(3) {
        return white(chance);
    }
    let pieces = chance.between(1, 3);
    (0..pieces)
        .flat_map(|_| if chance.one_in(3) { vec![chance.one_of(&WHITE)] } else { short_comment(chance) })
        .collect()
}

/// A number in decimal, at times with leading zeros up to five digits, seldom six.
fn number(chance: &mut Chance, number: usize) -> Vec<u8> {
    let width = match chance.below(30) {
        0..=21 => 1,
        22..=28 => chance.between(2, 5),
        _ => 6,
    };
    format!("{number:0width$}").into_bytes()
}

/// Two sides: mostly small, at times at the bounds of a side or of the product.
fn sides(chance: &mut Chance) -> [usize; 2] {
    let odd = [0, 1, 2, 1024, 1025, 4096, 4097, 16_383, 16_384, 16_385, 65_536, 99_999];
    match chance.below(12) {
        0 | 1 => [chance.one_of(&odd), chance.one_of(&odd)],
        2 => [chance.one_of(&odd), 1],
        _ => [chance.between(1, 5), chance.between(1, 5)],
    }
}

/// A picture with these gaps before its numbers: its header well formed but for six digits, its raster mostly of the
/// right length, and at times with `#` as its first byte.
fn with_gaps(chance: &mut Chance, [width, height]: [usize; 2], gaps: [Vec<u8>; 3]) -> Made {
    let depth = chance.one_of(&[255, 255, 255, 255, 255, 255, 254, 256, 0, 1, 65_535]);
    let mut input = b"P6".to_vec();
    for (gap, one) in gaps.into_iter().zip([width, height, depth]) {
        input.extend(gap);
        input.extend(number(chance, one));
    }
    input.push(chance.one_of(&WHITE));
    let header = input.len();
    let due = 3 * width * height;
    let most = 3 * 16_385;
    let raster = match chance.below(6) {
        0 => due + 1,
        1 => due.saturating_sub(1),
        2 => due + chance.below(9),
        _ => due,
    };
    input.extend(chance.bytes(raster.min(most)));
    if chance.one_in(6) {
        input[header..].first_mut().into_iter().for_each(|first| *first = b'#');
    }
    Made { input, header }
}

/// A picture, at times with comments.
pub fn picture(chance: &mut Chance) -> Made {
    let (sides, gaps) = (sides(chance), [(); 3].map(|()| gap(chance)));
    with_gaps(chance, sides, gaps)
}

/// A picture without comments.
pub fn without_comments(chance: &mut Chance) -> Made {
    let (sides, gaps) = (sides(chance), [(); 3].map(|()| white(chance)));
    with_gaps(chance, sides, gaps)
}

/// A picture with a comment of 60,000 bytes and more among the others.
pub fn with_long_comment(chance: &mut Chance) -> Made {
    let mut gaps = [(); 3].map(|()| gap(chance));
    let bytes = chance.between(60_000, 70_000);
    gaps[chance.below(3)].extend(comment(chance, bytes));
    with_gaps(chance, [2, 1], gaps)
}

/// A picture's bytes with comments in place of some white bytes, and for each of these its place before and how many
/// bytes are there more. The header has no comments, and the white byte at its end stays.
pub fn commented(chance: &mut Chance, plain: &Made) -> (Vec<u8>, Vec<(usize, usize)>) {
    let (mut input, mut more) = (Vec::new(), Vec::new());
    for (place, &byte) in plain.input.iter().enumerate() {
        if place + 1 < plain.header && WHITE.contains(&byte) && chance.one_in(2) {
            let comment = short_comment(chance);
            more.push((place, comment.len() - 1));
            input.extend(comment);
        } else {
            input.push(byte);
        }
    }
    (input, more)
}

/// The input with one place of it damaged: the byte replaced, doubled or removed, a byte before it, or cut there.
pub fn damaged(input: &[u8], place: usize, way: Way) -> Vec<u8> {
    let mut bytes = input.to_vec();
    match way {
        Way::Replaced(byte) => bytes[place] = byte,
        Way::Doubled => bytes.insert(place, input[place]),
        Way::Removed => drop(bytes.remove(place)),
        Way::Before(byte) => bytes.insert(place, byte),
        Way::Cut => bytes.truncate(place),
    }
    bytes
}

/// How a byte is damaged.
#[derive(Clone, Copy)]
pub enum Way {
    Replaced(u8),
    Doubled,
    Removed,
    Before(u8),
    Cut,
}
