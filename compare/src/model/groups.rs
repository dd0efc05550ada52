//! The palette from groups: each shade rounded once, from the exact mean of its last group, but for those that are
//! fixed (document 02).
use super::shade::{bad_centre, bad_coordinates, distance, point_of_key, shades_of};
use super::slip::Slip;
use super::table::{levels_of_key, used_entries};
use super::{when, Model, Test, BAD_CENTRE, BAD_COUNT, BAD_MEMBER, BAD_TABLE, MOST_PIXELS, MOST_SHADES, SHORT_ROOM};
use crate::ask::PaletteFromGroups;
use crate::outcome::{Outcome, Values};

/// How many shades there are: a third of the coordinates.
fn count_of(ask: &PaletteFromGroups) -> usize {
    ask.coordinates.len() / 3
}

/// The members of the used entries, as far as they are lent.
fn used_members(ask: &PaletteFromGroups) -> impl Iterator<Item = usize> + Clone + '_ {
    let used = usize::try_from(ask.table.record.used).unwrap_or(usize::MAX);
    ask.members.iter().take(used).map(|&member| member as usize)
}

impl Model {
    /// "the nearest level to the exact mean .., halves up" (document 02), of so many pixels and this sum of levels: of
    /// all levels the one that is least off, the higher of two.
    fn nearest_level(&mut self, sum: u128, pixels: u128) -> u8 {
        let off = |level: &u8| (u128::from(*level) * pixels).abs_diff(sum);
        let nearest = (0..=255).rev().min_by_key(off).expect("there are levels");
        let twice = ((32 * sum + pixels) / (2 * pixels) + 8) / 16;
        let above = 2 * (sum % pixels);
        self.meet_if(above == pixels, "a group's mean at a half");
        // Of so many pixels none is nearer to a half.
        let many = pixels > 100;
        self.meet_if(many && (1..=2).any(|step| above + step == pixels), "a group's mean just below a half");
        self.meet_if(many && (1..=2).any(|step| above == pixels + step), "a group's mean just above a half");
        self.meet_if(twice != u128::from(nearest), "a mean that is a level higher where it is rounded twice");
        match self.slip {
            Some(Slip::RoundsALevelTwice) => twice as u8,
            Some(Slip::CutsAMean) => (sum / pixels) as u8,
            _ => nearest,
        }
    }

    /// The group of a shade, by the slip if there is one: the used entries whose member is its number, each by its
    /// levels and its weight.
    fn group(&self, ask: &PaletteFromGroups, number: usize) -> Vec<([u128; 3], u128)> {
        let shades = shades_of(&ask.coordinates);
        let nearest = |key: u32| {
            let off = |&other: &usize| distance(point_of_key(key), shades[other]);
            (0..shades.len()).min_by_key(off)
        };
        let entries = used_entries(&ask.table).zip(used_members(ask));
        let joined = entries.filter(|&((key, _), member)| match self.slip {
            Some(Slip::TakesTheNearestColoursForAGroup) => nearest(key) == Some(number),
            Some(Slip::KeepsTheOldRuleForEveryShade) => false,
            _ => member == number,
        });
        let weight_of = |weight: u32| if self.slips(Slip::LeavesWeightsOutOfALevel) { 1 } else { weight };
        joined.map(|((key, weight), _)| (levels_of_key(key), weight_of(weight).into())).collect()
    }

    /// Whether a shade is one of the fixed ones, by the slip if there is one.
    fn is_fixed(&self, ask: &PaletteFromGroups, number: usize) -> bool {
        match self.slip {
            Some(Slip::RoundsAFixedShadeToItsGroup) => false,
            Some(Slip::FixesAShadeMore) => ask.fixed > 0 && number <= ask.fixed,
            _ => number < ask.fixed,
        }
    }

    /// The three bytes of a shade: from its group, and "a shade with no group keeps the old rule"; fixed ones "keep the
    /// old rule, .. group or none" (document 02).
    fn levels_of_shade(&mut self, ask: &PaletteFromGroups, number: usize) -> [u8; 3] {
        let group = self.group(ask, number);
        let pixels: u128 = group.iter().map(|entry| entry.1).sum();
        let fixed = self.is_fixed(ask, number);
        self.meet_if(group.is_empty(), if fixed { "a fixed shade with no group" } else { "a shade with no group" });
        self.meet_if(pixels == MOST_PIXELS, "a group of 16,777,216 pixels");
        [0, 1, 2].map(|channel| {
            let old = ask.coordinates[3 * number + channel];
            if group.is_empty() {
                return self.level_of(old);
            }
            let sum = group.iter().map(|(levels, weight)| weight * levels[channel]).sum();
            let nearest = self.nearest_level(sum, pixels);
            if !fixed {
                return nearest;
            }
            let level = self.level_of(old);
            self.meet_if(level != nearest, "a fixed shade of another level than its group's");
            level
        })
    }

    /// BAD COUNT "also, in run and palette, when no free shade is left" (document 02), by the slip if there is one.
    fn no_free_shade(&self, ask: &PaletteFromGroups) -> bool {
        match self.slip {
            Some(Slip::MakesAPaletteWithNoFreeShade) => ask.fixed > count_of(ask),
            Some(Slip::CutsTheFixedNumberTo32Bits) => ask.fixed % (1 << 32) >= count_of(ask),
            _ => ask.fixed >= count_of(ask),
        }
    }

    /// The tests in their order, "2, 4, 8, 7, 9, in that order" (document 02), by the slip if there is one.
    fn tests_of_groups(&mut self, ask: &PaletteFromGroups) -> Vec<Test> {
        let (used, count) = (u128::from(ask.table.record.used), count_of(ask));
        // "members fewer than the used entries", "palette bytes fewer than 3 for each shade"
        let short_members = when((ask.members.len() as u128) < used, "members fewer than used");
        let short_palette = when(ask.palette.len() < 3 * count, "palette bytes fewer than 3 a shade");
        // "a used entry's former shade number not below the count"
        let above = |member: usize| match self.slip {
            Some(Slip::AcceptsAMemberAtTheCount) => member > count,
            _ => member >= count,
        };
        let bad_member = match self.slip {
            Some(Slip::LooksAtMembersPastTheUsedOnes) => ask.members.iter().any(|&member| above(member as usize)),
            _ => used_members(ask).any(above),
        };
        let bad_centre = match self.slip {
            Some(Slip::TestsNoCentreOfAShadeWithAGroup) => {
                let shades = ask.coordinates.chunks(3).enumerate();
                let alone = shades.filter(|(number, _)| used_members(ask).all(|member| member != *number));
                bad_centre(&alone.flat_map(|(_, shade)| shade.to_vec()).collect::<Vec<u32>>())
            }
            _ => bad_centre(&ask.coordinates),
        };
        let mut tests = vec![
            (BAD_TABLE, self.bad_table(&ask.table)),
            (BAD_COUNT, bad_coordinates(&ask.coordinates)),
            (BAD_COUNT, when(self.no_free_shade(ask), "no free shade in a palette")),
            (BAD_CENTRE, bad_centre),
            (SHORT_ROOM, short_members),
            (SHORT_ROOM, short_palette),
            (BAD_MEMBER, when(bad_member, "a member not below the count")),
        ];
        match self.slip {
            Some(Slip::TestsTheRoomBeforeTheCentres) => tests[3..6].rotate_left(1),
            Some(Slip::TestsTheFixedNumberAfterTheCentres) => tests.swap(2, 3),
            _ => {}
        }
        tests
    }

    /// "the palette is made from the table, members and shades and thus also refuses as a single round does" (document
    /// 02). "Lent bytes past the last shade's stay."
    pub fn palette_from_groups(&mut self, ask: &PaletteFromGroups) -> Outcome {
        let tests = self.tests_of_groups(ask);
        let refusal = self.first_of_all(&tests);
        self.meet_edges_of_groups(ask, refusal);
        let mut palette = ask.palette.clone();
        if refusal == 0 {
            for number in 0..count_of(ask) {
                palette[3 * number..3 * number + 3].copy_from_slice(&self.levels_of_shade(ask, number));
            }
        }
        Outcome { refusal, fields: vec![("palette", Values::Bytes(palette))] }
    }

    /// Notes what is at its edge in an ask that is answered by this number.
    fn meet_edges_of_groups(&mut self, ask: &PaletteFromGroups, refusal: u32) {
        let (used, count) = (u128::from(ask.table.record.used), count_of(ask));
        let (members, bytes) = (ask.members.len() as u128, ask.palette.len());
        self.meet_edges_of_fixed_number(ask, refusal);
        if refusal == 0 {
            let mut formers = used_members(ask);
            let first = formers.next();
            self.meet_if(
                used > 1 && count > 1 && formers.all(|member| Some(member) == first),
                "one group of all entries",
            );
            self.meet_if(used == 0, "a palette from an empty table");
            self.meet_if(used > 0 && members == used, "members just as many as used");
            self.meet_if(ask.members.last() == Some(&u32::MAX), "a member of 2^32 - 1 past the used entries");
            self.meet_if(bytes == 3 * count, "palette bytes just 3 a shade");
            self.meet_if(bytes > 3 * count, "palette bytes past the last shade's");
            self.meet_if(count == 1, "one shade");
            self.meet_if(count == MOST_SHADES, "64 shades");
        }
        if refusal == SHORT_ROOM {
            self.meet_if(members + 1 == used, "members one fewer than used");
            self.meet_if(bytes + 1 == 3 * count, "a palette one byte short");
        }
        self.meet_if(refusal == BAD_MEMBER && used_members(ask).any(|member| member == count), "a member at the count");
        let mut bad_shades = (0..count).filter(|q| bad_centre(&ask.coordinates[3 * q..3 * q + 3]).is_some());
        let grouped = bad_shades.any(|number| used_members(ask).any(|member| member == number));
        self.meet_if(refusal == BAD_CENTRE && grouped, "a bad centre of a shade with a group");
    }

    /// Notes how the number of fixed shades stands to their count, and what else is refused where none is free.
    fn meet_edges_of_fixed_number(&mut self, ask: &PaletteFromGroups, refusal: u32) {
        let (fixed, count) = (ask.fixed, count_of(ask));
        if refusal == 0 {
            self.meet_if(fixed == 0, "no fixed shade");
            self.meet_if(0 < fixed && fixed + 1 < count, "two free shades and more beside fixed ones");
            self.meet_if(0 < fixed && fixed + 1 == count, "one free shade beside fixed ones");
            self.meet_if(fixed + 1 == MOST_SHADES, "63 fixed shades and 64 shades");
        }
        if fixed < count || bad_coordinates(&ask.coordinates).is_some() {
            return;
        }
        self.meet_if(refusal == BAD_TABLE, "2 and no free shade at once");
        if refusal == BAD_COUNT {
            self.meet_if(fixed == count, "as many fixed shades as shades");
            self.meet_if(fixed > count, "more fixed shades than shades");
            self.meet_if(fixed >= 1 << 32, "2^32 fixed shades and more");
            self.meet_if(bad_centre(&ask.coordinates).is_some(), "no free shade and 8 at once");
            self.meet_if(ask.palette.len() < 3 * count, "no free shade and 7 at once");
            self.meet_if(used_members(ask).any(|member| member >= count), "no free shade and 9 at once");
        }
    }
}
