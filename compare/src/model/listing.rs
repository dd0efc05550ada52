//! The listing program: from its standard input to its standard output.
use kohlenfloh::Record;

use super::run::limit_meant;
use super::slip::{ListingSlip, Slip};
use super::{when, Model, BAD_COUNT, BAD_SIZE};
use crate::ask::{Add, Map, Palette, PaletteFromGroups, Run, Table};
use crate::outcome::Outcome;

/// "an input over 65,536 bytes is BAD SIZE"
pub const MOST_INPUT: usize = 65_536;
/// "over 8,192 pixels is BAD SIZE too": a table of so many entries has room.
const MOST_LISTED: usize = 8192;

/// "the shade count as 1 or 2 digits, LF": the count, and what stands behind the line.
fn count_line(input: &[u8]) -> Option<(usize, &[u8])> {
    let end = input.iter().position(|&byte| byte == b'\n')?;
    let digits = &input[..end];
    if !(1..=2).contains(&digits.len()) || !digits.iter().all(u8::is_ascii_digit) {
        return None;
    }
    let count = digits.iter().fold(0, |count, digit| 10 * count + usize::from(digit - b'0'));
    Some((count, &input[end + 1..]))
}

/// The outcome of a call that is accepted, or its refusal.
fn accepted(outcome: Outcome) -> Result<Outcome, u32> {
    if outcome.refusal == 0 {
        Ok(outcome)
    } else {
        Err(outcome.refusal)
    }
}

/// "Fields are decimal without leading zeros, one blank between; every printed line ends with LF."
fn line(fields: &[u64]) -> String {
    let fields: Vec<String> = fields.iter().map(u64::to_string).collect();
    fields.join(" ") + "\n"
}

impl Model {
    /// What the program prints for an input. "A refusal prints the one line `refused N`."
    pub fn listing(&mut self, input: &[u8], slip: Option<ListingSlip>) -> Vec<u8> {
        let text = self.lines_of(input, slip).unwrap_or_else(|refusal| format!("refused {refusal}\n"));
        text.into_bytes()
    }

    /// "a malformed count line is BAD COUNT; an input over 65,536 bytes is BAD SIZE; then the picture's own refusals ..;
    /// then the run's", with limit 20: "the listing program .. now passes 20" (document 02). Then the mapping's: "Two
    /// shades of a run can round to one level triple ..: it then prints the refusal alone" (document 02).
    fn lines_of(&mut self, input: &[u8], slip: Option<ListingSlip>) -> Result<String, u32> {
        let slips = |one| slip == Some(one);
        let cut = slips(ListingSlip::ReadsNoByteMoreThanAnInputMayHave);
        let input = if cut { &input[..input.len().min(MOST_INPUT)] } else { input };
        let line = count_line(input);
        let long = input.len() > MOST_INPUT;
        self.meet_if(long && line.is_none(), "a malformed count line on a long input");
        let mut tests =
            [(BAD_COUNT, when(line.is_none(), "a malformed count line")), (BAD_SIZE, when(long, "a long input"))];
        if slips(ListingSlip::TestsTheLengthBeforeTheCountLine) {
            tests.reverse();
        }
        let refusal = self.first_of(&tests);
        let Some((count, picture)) = line.filter(|_| refusal == 0) else {
            return Err(refusal);
        };
        let raster = self.raster_to_list(picture)?;
        let limit = match slip {
            Some(ListingSlip::RunsWithALimitOfTwo) => 2,
            Some(ListingSlip::ListsByTheUsualLimit) => 0,
            _ => 20,
        };
        let table = self.table_of(raster)?;
        let run = Run { table, count, limit, members: vec![0; MOST_LISTED], totals: vec![0; limit_meant(limit)] };
        let ran = accepted(self.run(&run))?;
        self.tell(raster, &run, &ran, slip)
    }

    /// The table of a raster, from an empty one.
    pub fn table_of(&mut self, raster: &[u8]) -> Result<Table, u32> {
        let empty = Table { record: Record::default(), keys: vec![0; MOST_LISTED], weights: vec![0; MOST_LISTED] };
        let added = accepted(self.add(&Add { table: empty, strip: raster.to_vec() }))?;
        Ok(Table::left_by(&added))
    }

    /// "The listing program takes this palette" (document 02), the one from groups.
    fn palette_to_list(&mut self, run: &Run, ran: &Outcome, slip: Option<ListingSlip>) -> Result<Vec<u8>, u32> {
        let coordinates = ran.words("shades")[..3 * run.count].to_vec();
        let (members, palette) = (ran.words("members").to_vec(), vec![0; coordinates.len()]);
        let made = if slip == Some(ListingSlip::TakesThePaletteFromShades) {
            self.palette(&Palette { coordinates, palette })
        } else {
            let table = run.table.clone();
            self.palette_from_groups(&PaletteFromGroups { table, coordinates, members, fixed: 0, palette })
        };
        Ok(accepted(made)?.bytes("palette").to_vec())
    }

    /// The raster mapped to a palette, by the slip in spite of twins.
    fn mapped_to_list(&mut self, raster: &[u8], palette: &[u8], slip: Option<ListingSlip>) -> Result<Outcome, u32> {
        let (strip, palette, index) = (raster.to_vec(), palette.to_vec(), vec![0; raster.len() / 3]);
        let bent = self.slip;
        if slip == Some(ListingSlip::ListsTwins) {
            self.slip = Some(Slip::MapsByTwins);
        }
        let mapped = self.map(&Map { strip, palette, index, first: 0 });
        self.slip = bent;
        accepted(mapped)
    }

    /// "line 1 gives table colours, pixels, rounds, settled as 1 or 0, final total, distances; one line a shade gives
    /// number, R, G, B, pixels mapped to it; the last line is the mapping error."
    fn tell(&mut self, raster: &[u8], run: &Run, ran: &Outcome, slip: Option<ListingSlip>) -> Result<String, u32> {
        let slips = |one| slip == Some(one);
        let palette = self.palette_to_list(run, ran, slip)?;
        let mapped = self.mapped_to_list(raster, &palette, slip)?;
        let answer = ran.longs("rounds, settled, distances, final total");
        let settled = if slips(ListingSlip::PrintsEveryRunAsSettled) { 1 } else { answer[1] };
        self.meet_if(answer[0] > 2, "more than two rounds");
        let mut text =
            line(&[run.table.record.used, run.table.record.pixels, answer[0], settled, answer[3], answer[2]]);
        for (shade, levels) in palette.chunks(3).enumerate() {
            let mut pixels =
                mapped.bytes("index").iter().filter(|&&number| usize::from(number) == shade).count() as u64;
            let members = ran.words("members")[..run.table.used()].iter().zip(&run.table.weights);
            let group = members.filter(|(&member, _)| member as usize == shade).map(|(_, &weight)| u64::from(weight));
            let group: u64 = group.sum();
            self.meet_if(pixels != group, "other pixels mapped than grouped");
            if slips(ListingSlip::TakesTheRunsGroupsForTheMappedPixels) {
                pixels = group;
            }
            let [red, green, blue] = [0, 1, 2].map(|channel| u64::from(levels[channel]));
            text += &line(&[shade as u64, red, green, blue, pixels]);
        }
        Ok(text + &line(&[mapped.longs("error, R, G, B, mean or none, lower, higher")[0]]))
    }
}
