//! Comments in a picture's header: where they stand, where they do not, and that they change no answer.
use kohlenfloh::{Picture, Refusal};

/// What reading an input gives: the sides and the raster's place, or the refusal.
fn read(input: &[u8]) -> Result<(usize, usize, usize), Refusal> {
    let picture = Picture::read(input)?;
    let place = picture.raster().as_ptr() as usize - input.as_ptr() as usize;
    assert_eq!(&input[place..], picture.raster());
    Ok((picture.width(), picture.height(), place))
}

/// BAD HEADER at an offset.
fn bad_header(offset: usize) -> Result<(usize, usize, usize), Refusal> {
    Err(Refusal::BadHeader { offset })
}

/// Comments of every kind: empty, by each line end, and with bytes that mean something elsewhere.
const COMMENTS: [&[u8]; 10] = [
    b"#\n",
    b"#\r",
    b"#\r\n",
    b"# drawn by hand\n",
    b"##\r",
    b"#1 1 255 \n",
    b"#P6\r",
    b"#\0\xff\x0b\x0c\n",
    b"#\r#\n",
    b" #\n#\r\n\t",
];

#[test]
fn a_comment_stands_where_a_white_byte_may() {
    let cases: [(&[u8], (usize, usize)); 14] = [
        (b"P6#c\n1 1 255 abc", (1, 1)),
        (b"P6 #c\n1 1 255 abc", (1, 1)),
        (b"P6\n# one\n# two\n# three\n1 1 255 abc", (1, 1)),
        (b"P6 1#c\n1 255 abc", (1, 1)),
        (b"P6 1#c\r1 255 abc", (1, 1)),
        (b"P6 1 #c\r\n2 255 abcdef", (1, 2)),
        (b"P6 1 1#c\n255 abc", (1, 1)),
        (b"P6 1 1 #c\n255 abc", (1, 1)),
        (b"P6#\n2#\n1#\n255\nabcdef", (2, 1)),
        (b"P6#\r2#\r1#\r00255\rabcdef", (2, 1)),
        (b"P6 00002#c\n00001#c\n255\tabcdef", (2, 1)),
        (b"P6 #9\n#9\r 2 1 255 abcdef", (2, 1)),
        (b"P6 #P6 9 9 255 \n2 1 255 abcdef", (2, 1)),
        (b"P6 #\0\xff#\x0b\n2 1 255 abcdef", (2, 1)),
    ];
    for (input, (width, height)) in cases {
        let place = input.len() - 3 * width * height;
        assert_eq!(read(input), Ok((width, height, place)), "{}", input.escape_ascii());
    }
}

#[test]
fn a_hash_behind_the_depth_is_raster_or_refused() {
    assert_eq!(read(b"P6 1 1 255 #bc"), Ok((1, 1, 11)));
    assert_eq!(read(b"P6 1 1 255\n#\n#"), Ok((1, 1, 11)));
    assert_eq!(read(b"P6 1 1 255 #c\nabc"), Err(Refusal::BadRaster));
    for (input, offset) in [
        (b"P6 1 1 255#c\nabc".as_slice(), 10),
        (b"P6 1 1 255#", 10),
        (b"P6#\n1 1 255#\nabc", 11),
        (b"P6 1 1 2#c\n55 abc", 8),
        (b"P6 1 1 12345#c\nabc", 12),
    ] {
        assert_eq!(read(input), bad_header(offset), "{}", input.escape_ascii());
    }
}

#[test]
fn a_hash_before_or_inside_the_letters_is_refused_at_its_place() {
    for (input, offset) in [
        (b"#".as_slice(), 0),
        (b"#c\nP6 1 1 255 abc", 0),
        (b"##6 1 1 255 abc", 0),
        (b"P#", 1),
        (b"P#c\n6 1 1 255 abc", 1),
    ] {
        assert_eq!(read(input), bad_header(offset), "{}", input.escape_ascii());
    }
}

#[test]
fn a_comment_that_never_ends_is_refused_at_the_inputs_length() {
    for input in [
        b"P6#".as_slice(),
        b"P6 # comment",
        b"P6 # 1 1 255 abc",
        b"P6#c\n#c",
        b"P6 1#",
        b"P6 1 # 1 255 abc",
        b"P6 1 1#\0\xff",
        b"P6 1 1 ##",
        b"P6 12345#",
    ] {
        assert_eq!(read(input), bad_header(input.len()), "{}", input.escape_ascii());
    }
}

#[test]
fn behind_a_comment_a_header_is_judged_as_elsewhere() {
    for (input, refusal) in [
        (b"P6#c\n".as_slice(), Refusal::BadHeader { offset: 5 }),
        (b"P6 # drawn\n", Refusal::BadHeader { offset: 11 }),
        (b"P6 1 1#c\r", Refusal::BadHeader { offset: 9 }),
        (b"P6#c\nx 1 255 abc", Refusal::BadHeader { offset: 5 }),
        (b"P6#c\r\n\x0b1 1 255 abc", Refusal::BadHeader { offset: 6 }),
        (b"P6 1#c\n-1 255 abc", Refusal::BadHeader { offset: 7 }),
        (b"P6 123456#c\n", Refusal::BadHeader { offset: 8 }),
        (b"P6#c\n000001 1 255 abc", Refusal::BadHeader { offset: 10 }),
        (b"P6#c\n0 1 254 ", Refusal::BadSize),
        (b"P6 16384#c\n1025#c\n255 ", Refusal::BadSize),
        (b"P6#c\n1 1 254 abc", Refusal::BadDepth),
        (b"P6#c\n1 1 255 ab", Refusal::BadRaster),
        (b"P6#c\n1 1 255 abc\n", Refusal::BadRaster),
    ] {
        assert_eq!(read(input), Err(refusal), "{}", input.escape_ascii());
    }
}

/// Where the white bytes stand before the depth, in a header of these whose parts have one white byte between them.
fn gaps(input: &[u8]) -> Vec<usize> {
    (2..input.len()).filter(|&place| b" \t\r\n".contains(&input[place])).take(3).collect()
}

#[test]
fn a_comment_in_place_of_a_white_byte_changes_no_answer() {
    let inputs: [&[u8]; 12] = [
        b"P6 2 1 255 abcdef",
        b"P6\n00001\t2\r00255\n#\n#\r##",
        b"P6 0 1 255 ",
        b"P6 1 1 256 abc",
        b"P6 1 1 255 ab",
        b"P6 1 1 255 abcd",
        b"P6 1 1 255",
        b"P6 1 1 ",
        b"P6 x 1 255 abc",
        b"P6 1 123456 255 abc",
        b"P6 1 1 255\x0babc",
        b"P6 1 1 255#abc",
    ];
    for plain in inputs {
        let gaps = gaps(plain);
        for chosen in 1..1_usize << gaps.len() {
            for first in 0..COMMENTS.len() {
                let (mut input, mut places) = (Vec::new(), Vec::new());
                for (place, &byte) in plain.iter().enumerate() {
                    places.push(input.len());
                    match gaps.iter().position(|&gap| gap == place) {
                        Some(gap) if chosen >> gap & 1 == 1 => input.extend(COMMENTS[(first + gap) % COMMENTS.len()]),
                        _ => input.push(byte),
                    }
                }
                places.push(input.len());
                let due = match read(plain) {
                    Ok((width, height, place)) => Ok((width, height, places[place])),
                    Err(Refusal::BadHeader { offset }) => bad_header(places[offset]),
                    Err(other) => Err(other),
                };
                assert_eq!(read(&input), due, "{}", input.escape_ascii());
            }
        }
    }
}

#[test]
fn a_header_with_comments_that_is_cut_ends_early() {
    for comment in COMMENTS {
        let header = [b"P6", comment, b"12", comment, b"345", comment, b"255"].concat();
        for end in 0..=header.len() {
            assert_eq!(read(&header[..end]), bad_header(end), "{}", header[..end].escape_ascii());
        }
    }
}

#[test]
fn comments_are_of_any_length_and_number() {
    let rest = b"2 1 255 abcdef";
    let long = [60_000, 65_535, 65_536, 1_000_000].map(|bytes| [b"#", vec![b'c'; bytes].as_slice(), b"\n"].concat());
    let many = [b"#\n".repeat(60_000), b"# c\r\n".repeat(60_000)];
    for between in long.into_iter().chain(many) {
        let mut input = [b"P6", between.as_slice(), rest].concat();
        assert_eq!(read(&input), Ok((2, 1, 2 + between.len() + 8)));
        input.truncate(2 + between.trim_ascii_end().len());
        assert_eq!(read(&input), bad_header(input.len()));
        input.push(b'\r');
        assert_eq!(read(&input), bad_header(input.len()));
        input.extend(b"x");
        assert_eq!(read(&input), bad_header(input.len() - 1));
    }
}
