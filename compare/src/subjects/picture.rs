//! Reading P6 pictures: a picture, and the same with every byte of its header damaged in every way; one with comments
//! in place of white bytes; and in one of fifty cases one with a long comment.
use super::Subject;
use crate::ask::Picture;
use crate::bench::Bench;
use crate::chance::Chance;
use crate::library;
use crate::make::header::{commented, damaged, picture, with_long_comment, without_comments, Made, Way};
use crate::model::{Model, BAD_HEADER};
use crate::outcome::{Difference, Outcome};

pub const SUBJECT: Subject = Subject {
    name: "picture",
    cases: 10_000,
    one_case,
    meets: &[
        "a picture read",
        "a header that ends early",
        "a byte that cannot stand there",
        "wide white space",
        "six digits",
        "a leading zero",
        "a side of 0",
        "a side above 16,384",
        "a product above 16,777,216",
        "a raster too short",
        "a raster too long",
        "# before P6",
        "# inside P6",
        "a comment right after P6",
        "a comment right before the width",
        "a comment right after the width",
        "a comment right before the height",
        "a comment right after the height",
        "a comment right before the depth",
        "a comment right after five digits",
        "two comments in a row",
        "a comment that ends with LF",
        "a comment that ends with CR",
        "a comment that ends with CR LF",
        "an empty comment",
        "a comment of 60,000 bytes and more",
        "# in a comment",
        "NUL in a comment",
        "byte 255 in a comment",
        "a digit in a comment",
        "a comment that never ends",
        "a header that ends after a comment",
        "# right after the depth",
        "# as the first byte of a raster",
        "a picture read with comments in place of white bytes",
    ],
    refuses: &[12, 13, 14, 15],
};

/// Bytes that are put where others should stand.
const BYTES: [u8; 16] = *b" \t\r\n\x0b\x0c#-+.0159P6";

/// A picture, read by both.
fn read(bench: &mut Bench, input: Vec<u8>) -> Result<Outcome, Difference> {
    bench.compare(&Picture { input }, library::picture, Model::picture)
}

/// One picture and its damaged forms, one with comments in place of white bytes, and in one of fifty cases one with a
/// long comment.
fn one_case(bench: &mut Bench, chance: &mut Chance) -> Result<(), Difference> {
    every_damage(bench, chance)?;
    comments_for_white_bytes(bench, chance)?;
    if chance.one_in(50) {
        long_comment(bench, chance)?;
    }
    Ok(())
}

/// A picture, and its damaged forms; those of long pictures are cut to 500 bytes.
fn every_damage(bench: &mut Bench, chance: &mut Chance) -> Result<(), Difference> {
    let made = picture(chance);
    read(bench, made.input.clone())?;
    let short = &made.input[..made.input.len().min(500)];
    for place in 0..made.header {
        let any = chance.long() as u8;
        let bytes = BYTES.iter().copied().chain([any]);
        let ways = bytes.flat_map(|byte| [Way::Replaced(byte), Way::Before(byte)]);
        for way in ways.chain([Way::Doubled, Way::Removed, Way::Cut]) {
            read(bench, damaged(short, place, way))?;
        }
    }
    Ok(())
}

/// A picture with comments in place of white bytes, whole and cut: the answer is that without comments, but that places
/// behind a comment are as many bytes further as it has more than the white byte.
fn comments_for_white_bytes(bench: &mut Bench, chance: &mut Chance) -> Result<(), Difference> {
    let mut plain = without_comments(chance);
    if chance.one_in(3) {
        plain = Made { input: damaged(&plain.input, chance.below(plain.header), Way::Cut), ..plain };
    }
    let (input, more) = commented(chance, &plain);
    let further = |place: u64| {
        let before = more.iter().filter(|(at, _)| (*at as u64) < place);
        place + before.map(|(_, bytes)| *bytes as u64).sum::<u64>()
    };
    let (without, with) = (read(bench, plain.input)?, read(bench, input)?);
    Difference::unless_equal("refusal with comments", with.refusal, without.refusal)?;
    let answers = [&without, &with].map(|seen| seen.longs("offset, width, height, raster"));
    let [offset, width, height, raster] = answers[0].try_into().expect("an answer has its places");
    let offset = if with.refusal == BAD_HEADER { further(offset) } else { 0 };
    let raster = if with.refusal == 0 { further(raster) } else { 0 };
    bench.model.meet_if(with.refusal == 0 && !more.is_empty(), "a picture read with comments in place of white bytes");
    Difference::unless_equal("answer with comments", answers[1], &[offset, width, height, raster])
}

/// A picture with a long comment, whole, and damaged at some of its places.
fn long_comment(bench: &mut Bench, chance: &mut Chance) -> Result<(), Difference> {
    let made = with_long_comment(chance);
    read(bench, made.input.clone())?;
    for _ in 0..8 {
        let place = chance.below(made.header);
        for way in [Way::Replaced(b'\n'), Way::Replaced(b'\r'), Way::Before(b'#'), Way::Removed, Way::Cut] {
            read(bench, damaged(&made.input, place, way))?;
        }
    }
    Ok(())
}
