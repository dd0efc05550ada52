//! Every short header over five bytes: white bytes, comments and digits in all orders, none of them left to chance.
use compare::ask::Picture;
use compare::bench::Bench;
use compare::library;
use compare::model::Model;

/// The bytes between "P6" and the depth: what opens a comment, what ends one, another white byte, and a digit.
const BYTES: [u8; 5] = *b"#\n\r 1";

/// The most of them.
const MOST: usize = 8;

/// Every string of so many of these bytes.
fn strings(length: usize) -> impl Iterator<Item = Vec<u8>> {
    let byte = |number: usize, place: usize| BYTES[number / BYTES.len().pow(place as u32) % BYTES.len()];
    (0..BYTES.len().pow(length as u32)).map(move |number| (0..length).map(|place| byte(number, place)).collect())
}

/// How many strings of so many bytes are white bytes and comments alone: such a string begins with one of three white
/// bytes, or with a comment, which has `#`, some of the three bytes that do not end it, and one of the two that do.
fn gaps(length: usize) -> u64 {
    let comments = |inside: usize| 2 * 3_u64.pow(inside as u32) * gaps(length - 2 - inside);
    match length {
        0 => 1,
        1 => 3,
        _ => 3 * gaps(length - 1) + (0..=length - 2).map(comments).sum::<u64>(),
    }
}

/// How many strings of so many bytes stand between "P6" and the depth of a picture of one pixel: two digits 1, and
/// something before each and behind them.
fn headers(length: usize) -> u64 {
    let three = |first: usize, second: usize| gaps(first) * gaps(second) * gaps(length - 2 - first - second);
    let all = (1..length).flat_map(|first| (1..length).map(move |second| (first, second)));
    all.filter(|(first, second)| first + second + 3 <= length).map(|(first, second)| three(first, second)).sum()
}

#[test]
fn every_short_header_is_read_as_the_model_reads_it_and_as_many_as_there_are() {
    let mut bench = Bench::default();
    let mut read = |input: Vec<u8>| {
        let told = input.escape_ascii().to_string();
        let seen = bench.compare(&Picture { input }, library::picture, Model::picture);
        seen.unwrap_or_else(|difference| panic!("{told}: {difference}")).refusal
    };
    for length in 0..=MOST {
        let mut pictures = 0;
        for between in strings(length) {
            let input = [b"P6", between.as_slice(), b"255\nabc"].concat();
            read([b"P6", between.as_slice()].concat());
            pictures += u64::from(read(input) == 0);
        }
        assert_eq!(pictures, headers(length), "{length} bytes");
    }
}
