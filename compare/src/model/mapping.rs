//! Mapping a strip into its stretch of the index picture, with its errors and figures.
use super::palette::bad_palette;
use super::shade::Point;
use super::slip::Slip;
use super::{when, Model, Test, BAD_PALETTE, BAD_STRIP, MANY_PIXELS, MOST_PIXELS, SHORT_ROOM, TWIN_SHADE};
use crate::ask::Map;
use crate::outcome::{Outcome, Values};

/// A pixel's or an entry's three levels.
fn levels_of(bytes: &[u8]) -> Point {
    [bytes[0], bytes[1], bytes[2]].map(i64::from)
}

/// Where the stretch ends: "the stretch's first place plus the strip's pixels".
fn end_of(ask: &Map) -> u128 {
    ask.first as u128 + ask.strip.len() as u128 / 3
}

/// "error and pixel count converted without loss, then one division"
fn figure(error: u128, pixels: usize) -> u64 {
    (error as f64 / pixels as f64).to_bits()
}

impl Model {
    /// "each pixel gets the number of the nearest palette entry in whole levels, lowest number at a tie. The error is
    /// the sum of squared level differences, also kept for each channel."
    fn map_pixels(&mut self, strip: &[u8], palette: &[u8], stretch: &mut [u8]) -> [u128; 3] {
        let entries: Vec<(usize, Point)> = palette.chunks(3).map(levels_of).enumerate().collect();
        let mut errors = [0; 3];
        for (bytes, place) in strip.chunks(3).zip(stretch) {
            let pixel = levels_of(bytes);
            let number = self.nearest(pixel, &entries);
            *place = number as u8;
            for channel in 0..3 {
                errors[channel] += (pixel[channel] - entries[number].1[channel]).pow(2) as u128;
            }
        }
        errors
    }

    /// The tests in their order, "1, 10, 11, 7" with "18 TWIN SHADE .., after BAD PALETTE and before MANY PIXELS"
    /// (document 02), by the slip if there is one.
    fn tests_of_mapping(&self, ask: &Map) -> [Test; 5] {
        let mut tests = [
            (BAD_STRIP, when(!ask.strip.len().is_multiple_of(3), "a strip not a multiple of 3")),
            (BAD_PALETTE, bad_palette(&ask.palette)),
            (TWIN_SHADE, when(self.twins(ask).is_some(), "two equal entries")),
            (MANY_PIXELS, when(ask.strip.len() as u128 / 3 > MOST_PIXELS, "mapping over 16,777,216 pixels")),
            (SHORT_ROOM, when(end_of(ask) > ask.index.len() as u128, "a stretch past the index picture")),
        ];
        if self.slips(Slip::TestsTwinsAfterManyPixels) {
            tests.swap(2, 3);
        }
        tests
    }

    /// "every other index byte stays". "18 TWIN SHADE with the lower and the higher number" (document 02), which are 0
    /// and 0 in all other answers.
    pub fn map(&mut self, ask: &Map) -> Outcome {
        let refusal = self.first_of_all(&self.tests_of_mapping(ask));
        self.meet_if(refusal == SHORT_ROOM && end_of(ask) > usize::MAX as u128, "a stretch past all numbers");
        self.meet_edges_of_twins(ask, refusal);
        let mut answer = [0; 7];
        let mut means = [0; 4];
        let mut index = ask.index.clone();
        if refusal == 0 {
            let pixels = ask.strip.len() / 3;
            let errors = self.map_pixels(&ask.strip, &ask.palette, &mut index[ask.first..ask.first + pixels]);
            let error: u128 = errors.iter().sum();
            let [red, green, blue] = errors;
            // "either "no pixels" or a binary64 figure", "(zeros for no pixels)"
            answer = [error, red, green, blue, 0, 0, 0].map(|one| one as u64);
            if pixels > 0 {
                answer[4] = 1;
                means = [error, red, green, blue].map(|one| figure(one, pixels));
            }
            self.meet_if(pixels == 0, "no pixels");
            self.meet_if(end_of(ask) == ask.index.len() as u128, "a stretch up to the end");
        }
        let told = refusal == TWIN_SHADE || refusal != 0 && self.slips(Slip::TellsTwinsWithAnyRefusal);
        if let Some((lower, higher)) = self.twins(ask).filter(|_| told) {
            answer[5..].copy_from_slice(&[lower as u64, higher as u64]);
        }
        let fields = vec![
            ("error, R, G, B, mean or none, lower, higher", Values::Longs(answer.to_vec())),
            ("means by their bits", Values::Longs(means.to_vec())),
            ("index", Values::Bytes(index)),
        ];
        Outcome { refusal, fields }
    }
}
