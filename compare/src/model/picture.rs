//! Reading a P6 picture.
use super::slip::Slip;
use super::{when, Model, BAD_DEPTH, BAD_HEADER, BAD_RASTER, BAD_SIZE, MOST_PIXELS};
use crate::ask::Picture;
use crate::outcome::{Outcome, Values};

/// A header as read: its three numbers, and the place after it.
struct Header {
    width: u128,
    height: u128,
    depth: u128,
    raster: usize,
}

/// "white bytes (blank, TAB, CR, LF)"
fn is_white(byte: u8) -> bool {
    byte == b' ' || byte == b'\t' || byte == b'\r' || byte == b'\n'
}

/// The place after a byte of some kind, or the place at which there is none.
fn one_byte(input: &[u8], at: usize, fits: impl Fn(u8) -> bool) -> Result<usize, usize> {
    match input.get(at) {
        Some(&byte) if fits(byte) => Ok(at + 1),
        _ => Err(at),
    }
}

/// ""P6"; one or more white bytes (blank, TAB, CR, LF); width; white bytes; height; white bytes; depth; exactly one
/// white byte". A failure is "the offset of the first byte that cannot stand there, or the input's length if it ends
/// early". "After the depth there is still one white byte and no comment. Offsets still count all bytes of the input."
/// (document 02)
fn header(model: &mut Model, input: &[u8]) -> Result<Header, usize> {
    let hash = |at: usize| input.get(at) == Some(&b'#');
    model.meet_if(hash(0), "# before P6");
    let at = if hash(0) && model.slips(Slip::TakesAHashBeforeTheLetters) { comment(model, input, 0)? } else { 0 };
    let at = one_byte(input, at, |byte| byte == b'P')?;
    model.meet_if(hash(at), "# inside P6");
    let at = one_byte(input, at, |byte| byte == b'6')?;
    let at = white_bytes(model, input, at, &GAPS[0])?;
    let (width, at) = number(model, input, at)?;
    let at = white_bytes(model, input, at, &GAPS[1])?;
    let (height, at) = number(model, input, at)?;
    let at = white_bytes(model, input, at, &GAPS[2])?;
    let (depth, at) = number(model, input, at)?;
    model.meet_if(hash(at), "# right after the depth");
    let raster = if hash(at) && model.slips(Slip::TakesACommentAfterTheDepth) {
        comment(model, input, at)?
    } else {
        one_byte(input, at, is_white)?
    };
    Ok(Header { width, height, depth, raster })
}

/// "one or more white bytes": the place after them. What stands there is noted, each by its first byte.
fn white_bytes(model: &mut Model, input: &[u8], at: usize, gap: &Gap) -> Result<usize, usize> {
    if model.slips(Slip::AsksForAWhiteByteBeforeAComment) {
        one_byte(input, at, is_white)?;
    }
    let mut end = white_byte(model, input, at)?;
    let mut firsts = vec![input[at]];
    while let Some(&first) = input.get(end).filter(|&&byte| byte == b'#' || is_white(byte)) {
        end = white_byte(model, input, end)?;
        firsts.push(first);
    }
    gap.note(model, &firsts, (&input[..at], input.get(end)));
    Ok(end)
}

/// "a `#` met where a white byte between header parts may stand, after "P6" and before the depth, opens a comment ..
/// It counts as one white byte." (document 02) The place after the white byte or the comment.
fn white_byte(model: &mut Model, input: &[u8], at: usize) -> Result<usize, usize> {
    match input.get(at) {
        Some(b'#') => comment(model, input, at),
        _ => one_byte(input, at, is_white),
    }
}

/// "a comment up to and including the next LF or CR": the place after it. "BAD HEADER at the input's length when a
/// comment never ends." (document 02)
fn comment(model: &mut Model, input: &[u8], at: usize) -> Result<usize, usize> {
    let mut end = at + 1;
    let ends = |model: &Model, byte: u8| byte == b'\n' || byte == b'\r' && !model.slips(Slip::EndsACommentAtLfAlone);
    while let Some(&byte) = input.get(end) {
        end += 1;
        if ends(model, byte) {
            note_comment(model, &input[at + 1..end - 1], &input[end - 1..]);
            return Ok(end + usize::from(model.slips(Slip::SkipsTheByteAfterAComment)));
        }
    }
    model.meet("a comment that never ends");
    Err(if model.slips(Slip::TellsAnUnendedCommentAtItsHash) { at } else { end })
}

/// Notes what a comment holds and how it ends.
fn note_comment(model: &mut Model, inside: &[u8], from_its_end: &[u8]) {
    model.meet(match from_its_end {
        [b'\r', b'\n', ..] => "a comment that ends with CR LF",
        [b'\r', ..] => "a comment that ends with CR",
        _ => "a comment that ends with LF",
    });
    model.meet_if(inside.is_empty(), "an empty comment");
    model.meet_if(inside.len() >= 60_000, "a comment of 60,000 bytes and more");
    model.meet_if(inside.contains(&b'#'), "# in a comment");
    model.meet_if(inside.contains(&0), "NUL in a comment");
    model.meet_if(inside.contains(&255), "byte 255 in a comment");
    model.meet_if(inside.iter().any(u8::is_ascii_digit), "a digit in a comment");
}

/// A gap between two parts of a header: what a comment right after the one is called, and one right before the other.
struct Gap {
    after: &'static str,
    before: &'static str,
}

const GAPS: [Gap; 3] = [
    Gap { after: "a comment right after P6", before: "a comment right before the width" },
    Gap { after: "a comment right after the width", before: "a comment right before the height" },
    Gap { after: "a comment right after the height", before: "a comment right before the depth" },
];

impl Gap {
    /// Notes what stands in this gap by the first bytes of its white bytes and comments, and by the bytes around it.
    fn note(&self, model: &mut Model, firsts: &[u8], (before, next): (&[u8], Option<&u8>)) {
        let digits = before.iter().rev().take_while(|byte| byte.is_ascii_digit()).count();
        let (begins, ends) = (firsts.first() == Some(&b'#'), firsts.last() == Some(&b'#'));
        model.meet_if(begins, self.after);
        model.meet_if(begins && digits == 5, "a comment right after five digits");
        model.meet_if(ends && next.is_some(), self.before);
        model.meet_if(ends && next.is_none(), "a header that ends after a comment");
        model.meet_if(firsts.windows(2).any(|two| two == b"##"), "two comments in a row");
        model.meet_if(firsts.len() > 8, "wide white space");
    }
}

/// "Numbers have 1 to 5 decimal digits, leading zeros allowed." "Each number's reading yields the number and where it
/// ended, or the place it failed."
fn number(model: &mut Model, input: &[u8], at: usize) -> Result<(u128, usize), usize> {
    let mut end = one_byte(input, at, |byte| byte.is_ascii_digit())?;
    while let Ok(next) = one_byte(input, end, |byte| byte.is_ascii_digit()) {
        if next - at > 5 {
            model.meet("six digits");
            return Err(end);
        }
        end = next;
    }
    model.meet_if(input[at] == b'0' && end - at > 1, "a leading zero");
    let digits = input[at..end].iter().map(|&digit| u128::from(digit - b'0'));
    Ok((digits.fold(0, |number, digit| 10 * number + digit), end))
}

/// BAD SIZE: "sides or product out of range"; "Sides 1 to 16,384, at most 16,777,216 pixels".
fn bad_size(header: &Header) -> Option<&'static str> {
    let sides = [header.width, header.height];
    if sides.contains(&0) {
        return Some("a side of 0");
    }
    if sides.iter().any(|&side| side > 16_384) {
        return Some("a side above 16,384");
    }
    when(header.width * header.height > MOST_PIXELS, "a product above 16,777,216")
}

/// Of a picture that is listed: "over 8,192 pixels is BAD SIZE too".
fn too_many_to_list(header: &Header) -> Option<&'static str> {
    when(header.width * header.height > 8192, "a listing of more than 8,192 pixels")
}

/// BAD RASTER: "raster shorter or longer" than "exactly 3 × width × height raster bytes".
fn bad_raster(header: &Header, input: &[u8]) -> Option<&'static str> {
    let bytes = (input.len() - header.raster) as u128;
    let due = 3 * header.width * header.height;
    when(bytes < due, "a raster too short").or(when(bytes > due, "a raster too long"))
}

impl Model {
    /// The raster of a picture that is listed, or its refusal: "the picture's own refusals, where over 8,192 pixels is
    /// BAD SIZE too".
    pub(super) fn raster_to_list<'a>(&mut self, input: &'a [u8]) -> Result<&'a [u8], u32> {
        let header = header(self, input).map_err(|_| BAD_HEADER)?;
        let refusal = self.first_of(&[
            (BAD_SIZE, bad_size(&header).or(too_many_to_list(&header))),
            (BAD_DEPTH, when(header.depth != 255, "a depth not 255")),
            (BAD_RASTER, bad_raster(&header, input)),
        ]);
        if refusal == 0 {
            Ok(&input[header.raster..])
        } else {
            Err(refusal)
        }
    }

    /// "Picture: 12, 13, 14, 15." "BAD HEADER carries its offset".
    pub fn picture(&mut self, ask: &Picture) -> Outcome {
        let (refusal, answer) = match header(self, &ask.input) {
            Err(at) => {
                let early = at == ask.input.len();
                self.meet(if early { "a header that ends early" } else { "a byte that cannot stand there" });
                let further = usize::from(self.slips(Slip::PutsTheOffsetOneTooFar));
                (BAD_HEADER, [at + further, 0, 0, 0])
            }
            Ok(header) => {
                let refusal = self.first_of(&[
                    (BAD_SIZE, bad_size(&header)),
                    (BAD_DEPTH, when(header.depth != 255, "a depth not 255")),
                    (BAD_RASTER, bad_raster(&header, &ask.input)),
                ]);
                let sides = [header.width as usize, header.height as usize];
                (refusal, if refusal == 0 { [0, sides[0], sides[1], header.raster] } else { [0; 4] })
            }
        };
        self.meet_if(refusal == 0, "a picture read");
        self.meet_if(refusal == 0 && ask.input[answer[3]] == b'#', "# as the first byte of a raster");
        let answer = answer.map(|one| one as u64).to_vec();
        Outcome { refusal, fields: vec![("offset, width, height, raster", Values::Longs(answer))] }
    }
}
