//! The run with shades fixed from stock (document 02).
use super::round::Moves;
use super::run::bad_count;
use super::shade::{distance, point_of_key, Point};
use super::slip::Slip;
use super::table::{key_of, used_entries};
use super::{when, Model, Test, BAD_COUNT, BAD_PALETTE, BAD_TABLE, FEW_COLOURS, MOST_SHADES};
use crate::ask::{Rule, RunFixed, Table};
use crate::outcome::Outcome;

/// "a fixed list not of 3 to 189 bytes" (document 02): so many at most.
const MOST_FIXED_BYTES: usize = 189;

/// "whole-level shades" (document 02), three bytes each, where they stand on the grid; bytes past whole triples are
/// none.
pub fn fixed_shades(fixed: &[u8]) -> Vec<Point> {
    fixed.chunks_exact(3).map(|levels| point_of_key(key_of(levels))).collect()
}

/// "colours with a non-zero distance remain" (document 02): the used entries unlike every fixed shade, key and weight.
pub fn unlike<'a>(table: &'a Table, fixed: &'a [Point]) -> impl Iterator<Item = (u32, u32)> + 'a {
    let apart = |key: u32| fixed.iter().all(|&shade| distance(point_of_key(key), shade) > 0);
    used_entries(table).filter(move |&(key, _)| apart(key))
}

impl Model {
    /// "BAD PALETTE for a fixed list not of 3 to 189 bytes or not a multiple of 3" (document 02).
    fn bad_fixed(&self, fixed: &[u8]) -> Option<&'static str> {
        let most = if self.slips(Slip::TakesSixtyFourFixedShades) { MOST_FIXED_BYTES + 3 } else { MOST_FIXED_BYTES };
        match fixed.len() {
            0 => Some("an empty fixed list"),
            below if below < 3 => Some("fewer than 3 fixed bytes"),
            above if above > most => Some("more than 189 fixed bytes"),
            length if length % 3 != 0 && !self.slips(Slip::DropsFixedBytesPastTriples) => {
                Some("fixed bytes not a multiple of 3")
            }
            _ => None,
        }
    }

    /// Whether "fewer colours with a non-zero distance remain than there are free shades" (document 02), by the slip if
    /// there is one.
    fn few_colours(&self, ask: &RunFixed) -> bool {
        let (table, count, fixed) = (&ask.run.table, ask.run.count as u128, fixed_shades(&ask.fixed));
        let used = u128::from(table.record.used);
        let met = |shade: &&Point| used_entries(table).any(|(key, _)| point_of_key(key) == **shade);
        let remain = match self.slip {
            Some(Slip::CountsAnEqualFixedShadeTwice) => used.saturating_sub(fixed.iter().filter(met).count() as u128),
            Some(Slip::CountsColoursThatAreFixed) => used,
            Some(Slip::CountsColoursByWeight) => unlike(table, &fixed).map(|(_, weight)| u128::from(weight)).sum(),
            _ => unlike(table, &fixed).count() as u128,
        };
        let more_shades = self.slips(Slip::AsksForAsManyColoursAsShades) && count > used;
        remain < count.saturating_sub(fixed.len() as u128) || more_shades
    }

    /// The tests in their order, "BAD PALETTE .., after BAD TABLE; BAD COUNT also .. when no free shade is left; FEW
    /// COLOURS on the condition just given" (document 02), then those of every run; by the slip if there is one.
    fn tests_of_fixed(&mut self, ask: &RunFixed) -> Vec<Test> {
        let (count, fixed) = (ask.run.count, ask.fixed.len() / 3);
        let no_free = if self.slips(Slip::RunsWithNoFreeShade) { count < fixed } else { count <= fixed };
        let [bad_limit, short_members, short_totals] = self.tests_of_rounds(&ask.run);
        let mut tests = vec![
            (BAD_TABLE, self.bad_table(&ask.run.table)),
            (BAD_PALETTE, self.bad_fixed(&ask.fixed)),
            (BAD_COUNT, bad_count(count).or(when(no_free, "no free shade in a run"))),
            (FEW_COLOURS, when(self.few_colours(ask), "fewer colours left than free shades")),
            bad_limit,
            short_members,
            short_totals,
        ];
        match self.slip {
            Some(Slip::TestsTheFixedListBeforeTheTable) => tests.swap(0, 1),
            Some(Slip::TestsTheCountBeforeTheFixedList) => tests.swap(1, 2),
            Some(Slip::TestsTheColoursBeforeTheCount) => tests.swap(2, 3),
            Some(Slip::TestsTheLimitBeforeTheColours) => tests.swap(3, 4),
            Some(Slip::TestsTheRoomBeforeTheLimit) => tests[4..].rotate_left(1),
            _ => {}
        }
        tests
    }

    /// The starts beside fixed shades, these first: "They .. take the lowest numbers; maximin goes on from them, and
    /// shade 0 is a mean only when none is fixed" (document 02); by the slip if there is one.
    pub fn starts_beside(&mut self, fixed: &[Point], table: &Table, count: usize) -> Vec<Point> {
        match self.slip {
            Some(Slip::BeginsOnTheMeanBesideFixedShades) => {
                let mean = self.shade_zero(table);
                self.starts_from([fixed, &[mean]].concat(), table, count)
            }
            Some(Slip::OverlooksTheOtherFixedShades) => {
                let alone = self.starts_from(vec![fixed[0]], table, count - fixed.len() + 1);
                [fixed, &alone[1..]].concat()
            }
            Some(Slip::NumbersFixedShadesLast) => {
                let mut starts = self.starts_from(fixed.to_vec(), table, count);
                starts.rotate_left(fixed.len());
                starts
            }
            _ => self.starts_from(fixed.to_vec(), table, count),
        }
    }

    /// "Let the caller hand in 1 to 63 whole-level shades that never move. They are part of the shade count" (document
    /// 02).
    pub fn run_fixed(&mut self, ask: &RunFixed) -> Outcome {
        let RunFixed { run, fixed } = ask;
        if fixed.is_empty() && self.slips(Slip::TakesAnEmptyListAsNone) {
            return self.run(run);
        }
        let tests = self.tests_of_fixed(ask);
        let refusal = self.first_of_all(&tests);
        self.meet_edges_of_fixed(ask, refusal);
        let mut shades = fixed_shades(fixed);
        let held = match self.slip {
            Some(Slip::NumbersFixedShadesLast) => run.count.saturating_sub(shades.len())..run.count,
            _ => 0..shades.len(),
        };
        if self.slips(Slip::PutsFixedShadesInWholeLevels) {
            shades.iter_mut().flatten().for_each(|coordinate| *coordinate /= 16);
        }
        let moves = Moves { rule: Rule::Lloyd, held };
        self.left_by_run(refusal, run, &moves, |model| model.starts_beside(&shades, &run.table, run.count))
    }

    /// Notes what is at its edge in an ask that is answered by this number.
    fn meet_edges_of_fixed(&mut self, ask: &RunFixed, refusal: u32) {
        let (table, count, fixed) = (&ask.run.table, ask.run.count, fixed_shades(&ask.fixed));
        let (bytes, used) = (ask.fixed.len(), u128::from(table.record.used));
        if refusal == BAD_PALETTE {
            self.meet_if(bytes == 190, "190 fixed bytes");
            self.meet_if(bytes == 191, "191 fixed bytes");
            self.meet_if(bytes == 192, "192 fixed bytes");
        }
        self.meet_if(refusal == BAD_COUNT && count == fixed.len(), "as many fixed shades as shades");
        if refusal != 0 && refusal != FEW_COLOURS {
            return;
        }
        let remain = unlike(table, &fixed).count();
        let free = count - fixed.len();
        if refusal == FEW_COLOURS {
            self.meet_if(used > 0 && remain == 0, "every table colour fixed");
            self.meet_if(used == 0, "fixed shades and an empty table");
            self.meet_if(remain + 1 == free, "colours left one fewer than free shades");
            self.meet_if(remain + 1 < free, "colours left two fewer than free shades, or more");
            return;
        }
        let equal = |shade: &Point| fixed.iter().filter(|&other| other == shade).count() > 1;
        let in_table = |shade: &Point| used_entries(table).any(|(key, _)| point_of_key(key) == *shade);
        self.meet_if(fixed.iter().any(in_table), "a fixed shade that is a table colour");
        self.meet_if(!fixed.iter().any(in_table), "no fixed shade that is a table colour");
        self.meet_if(fixed.iter().any(equal), "two equal fixed shades");
        self.meet_if(fixed.iter().any(|shade| equal(shade) && in_table(shade)), "two equal fixed shades in the table");
        self.meet_if(fixed.len() + 1 == MOST_SHADES, "63 fixed shades and 64 shades");
        self.meet_if(remain == free, "colours left just as many as free shades");
        self.meet_if(count as u128 > used, "more shades than used entries, and accepted");
        let fours = used == 2 && fixed.len() == 2 && count == 4;
        self.meet_if(fours, "two colours, two fixed shades that are neither, four shades");
    }
}
