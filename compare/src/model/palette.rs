//! The palette from shades, and the test of a palette's length.
use super::shade::{bad_centre, bad_coordinates};
use super::slip::Slip;
use super::{when, Model, BAD_CENTRE, BAD_COUNT, MOST_SHADES, SHORT_ROOM};
use crate::ask::Palette;
use crate::outcome::{Outcome, Values};

/// BAD PALETTE: "palette bytes not 3 to 192 or not a multiple of 3".
pub fn bad_palette(palette: &[u8]) -> Option<&'static str> {
    match palette.len() {
        below if below < 3 => Some("fewer than 3 palette bytes"),
        above if above > 3 * MOST_SHADES => Some("more than 192 palette bytes"),
        length if length % 3 != 0 => Some("palette bytes not a multiple of 3"),
        _ => None,
    }
}

impl Model {
    /// "Palette byte: the whole part of (coordinate + 8) / 16."
    pub fn level_of(&mut self, coordinate: u32) -> u8 {
        self.meet_if(coordinate % 16 == 8, "a coordinate half-way between levels");
        let rounding = if self.slips(Slip::CutsPaletteBytes) { 0 } else { 8 };
        ((coordinate + rounding) / 16) as u8
    }

    /// "Palette from shades: 4, 8, 7." "Lent bytes past the last shade's stay."
    pub fn palette(&mut self, ask: &Palette) -> Outcome {
        // "palette bytes fewer than 3 for each shade"
        let short = when(ask.palette.len() < ask.coordinates.len(), "palette bytes fewer than 3 a shade");
        let refusal = self.first_of(&[
            (BAD_COUNT, bad_coordinates(&ask.coordinates)),
            (BAD_CENTRE, bad_centre(&ask.coordinates)),
            (SHORT_ROOM, short),
        ]);
        let mut palette = ask.palette.clone();
        if refusal == 0 {
            for (byte, &coordinate) in palette.iter_mut().zip(&ask.coordinates) {
                *byte = self.level_of(coordinate);
            }
        }
        Outcome { refusal, fields: vec![("palette", Values::Bytes(palette))] }
    }
}
