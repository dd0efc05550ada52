//! Starting shades and the run, by either rule; and what every run leaves.
use super::round::{total_of, Moves};
use super::shade::{colours_of, coordinates_of, distance, Colour, Point};
use super::slip::Slip;
use super::table::sums_told;
use super::{
    when, Model, Test, BAD_COUNT, BAD_LIMIT, BAD_TABLE, FEW_COLOURS, MOST_COORDINATE, MOST_SHADES, SHORT_ROOM,
};
use crate::ask::{Rule, Run, Table};
use crate::outcome::{Outcome, Values};

/// What an accepted run makes.
struct Made {
    members: Vec<usize>,
    totals: Vec<u64>,
    shades: Vec<Point>,
    settled: bool,
    distances: u64,
}

/// "A limit of 0 is to mean 100" (document 02).
pub const USUAL_LIMIT: usize = 100;

/// What a limit that is asked for means.
pub fn limit_meant(limit: usize) -> usize {
    if limit == 0 {
        USUAL_LIMIT
    } else {
        limit
    }
}

/// BAD COUNT: "shades not 1 to 64".
pub fn bad_count(count: usize) -> Option<&'static str> {
    when(count < 1, "a count of 0").or(when(count > MOST_SHADES, "a count above 64"))
}

impl Model {
    /// "Shade 0 is the rounded mean of the whole table, weights counted." It "reads its mean from" the sums (document
    /// 02), which are in whole levels, and shades in sixteenths.
    pub fn shade_zero(&mut self, table: &Table) -> Point {
        if self.slips(Slip::LeavesWeightsOutOfShadeZero) {
            let mut counted = colours_of(table);
            counted.iter_mut().for_each(|colour| colour.weight = 1);
            return self.mean_of(&counted);
        }
        let pixels = u128::from(table.record.pixels);
        sums_told(table.record).map(|sum| {
            self.meet_if(32 * sum % (2 * pixels) == pixels, "shade 0 at a half");
            if self.slips(Slip::ReadsShadeZeroWithoutHalvesUp) {
                return (16 * sum / pixels) as i64;
            }
            // No mean of a table is above 4080; a model that takes any sum may meet one.
            self.rounded_mean((16 * sum).min(u128::from(MOST_COORDINATE) * pixels), pixels)
        })
    }

    /// Shade 0, and those that go on from it.
    pub fn starts(&mut self, table: &Table, count: usize) -> Vec<Point> {
        let shade_zero = self.shade_zero(table);
        self.starts_from(vec![shade_zero], table, count)
    }

    /// "Each next shade is the table colour whose distance to its nearest chosen shade is greatest; at a tie, the
    /// lowest key": from some chosen shades to so many.
    pub fn starts_from(&mut self, mut chosen: Vec<Point>, table: &Table, count: usize) -> Vec<Point> {
        let colours = colours_of(table);
        while chosen.len() < count {
            let to_nearest = |colour: &Colour| chosen.iter().map(|&shade| distance(colour.point, shade)).min();
            let all: Vec<_> = colours.iter().map(to_nearest).collect();
            let greatest = all.iter().max().expect("a run has a colour");
            let mut farthest = all.iter().enumerate().filter(|one| one.1 == greatest).map(|one| one.0);
            let lowest = farthest.next().expect("some colour is farthest");
            self.meet_if(farthest.next().is_some(), "a tie among the starts");
            chosen.push(colours[lowest].point);
        }
        chosen
    }

    /// "A run starts with every colour in shade 0, uses shortened rounds, and ends with the first round that moves no
    /// shade ("settled") or at the round limit."
    fn rounds(&mut self, moves: &Moves, table: &Table, starts: Vec<Point>, limit: usize) -> Made {
        let colours = &colours_of(table);
        let mut shades = starts;
        let first = if self.slips(Slip::BeginsInTheFirstFreeShade) { moves.held.end } else { 0 };
        let mut made =
            Made { members: vec![first; colours.len()], totals: vec![], shades: vec![], settled: false, distances: 0 };
        while made.totals.len() < limit && !made.settled {
            let round = self.one_round(moves, colours, &shades, Some(&made.members));
            made.totals.push(round.total as u64);
            made.distances += round.distances;
            made.settled = round.moved == 0;
            made.members = round.members;
            shades = round.shades;
        }
        self.meet_if(made.settled && made.totals.len() == limit, "settled at the limit");
        self.meet(if made.settled { "settled" } else { "not settled" });
        self.meet_if(made.totals.len() >= 8, "eight rounds or more");
        Made { shades, ..made }
    }

    /// The limit that a run asks for, by the slip if there is one.
    fn limit_of(&self, limit: usize) -> usize {
        match (limit, self.slip) {
            (0, Some(Slip::TakesALimitOfZeroAsTwenty)) => 20,
            (0, Some(Slip::TakesALimitOfZeroAsNinetyNine)) => 99,
            _ => limit_meant(limit),
        }
    }

    /// The run of document 01.
    pub fn run(&mut self, ask: &Run) -> Outcome {
        self.run_by(Rule::Lloyd, ask)
    }

    /// "a second kind of run, like document 01's in everything but where a shade with a group moves" (document 02).
    pub fn run_jancey(&mut self, ask: &Run) -> Outcome {
        self.run_by(Rule::Jancey, ask)
    }

    /// "Run: 2, 4, 5, 6, 7." and "Refusals: as for a run." (document 02)
    fn run_by(&mut self, rule: Rule, ask: &Run) -> Outcome {
        let used = u128::from(ask.table.record.used);
        let bad_table = self.bad_table(&ask.table);
        let [bad_limit, short_members, short_totals] = self.tests_of_rounds(ask);
        let refusal = self.first_of(&[
            (BAD_TABLE, bad_table),
            (BAD_COUNT, bad_count(ask.count)),
            (FEW_COLOURS, when(ask.count as u128 > used, "more shades than used entries")),
            bad_limit,
            short_members,
            short_totals,
        ]);
        self.left_by_run(refusal, ask, &rule.into(), |model| model.starts(&ask.table, ask.count))
    }

    /// The tests of a run's limit and of the room lent to it, in their order.
    pub fn tests_of_rounds(&self, ask: &Run) -> [Test; 3] {
        let used = u128::from(ask.table.record.used);
        let limit = self.limit_of(ask.limit);
        // "members fewer than the used entries; totals fewer than the round limit (100 for 0)"
        let short_members = when((ask.members.len() as u128) < used, "members fewer than used");
        let short_totals = when(ask.totals.len() < limit, "totals fewer than the limit");
        let bad_limit = when(ask.limit > 200, "a limit above 200");
        [(BAD_LIMIT, bad_limit), (SHORT_ROOM, short_members), (SHORT_ROOM, short_totals)]
    }

    /// What a run leaves that is answered by this number: where it is accepted, what its rounds make of its starts.
    pub fn left_by_run(
        &mut self,
        refusal: u32,
        ask: &Run,
        moves: &Moves,
        starts: impl FnOnce(&mut Model) -> Vec<Point>,
    ) -> Outcome {
        let lent = (20..USUAL_LIMIT).contains(&ask.totals.len());
        self.meet_if(refusal == SHORT_ROOM && ask.limit == 0 && lent, "a limit of 0 with 20 to 99 totals");
        let mut answer = [0; 4];
        let mut coordinates = [0; 192];
        let mut members = ask.members.clone();
        let mut totals = ask.totals.clone();
        if refusal == 0 {
            let (starts, limit) = (starts(self), self.limit_of(ask.limit));
            let made = self.rounds(moves, &ask.table, starts, limit);
            self.meet_if(ask.limit == 0 && made.totals.len() > 20, "a limit of 0 and more than 20 rounds");
            // "the final total: the last grouping against the final shades"
            let total = total_of(&colours_of(&ask.table), &made.members, &made.shades);
            answer = [made.totals.len() as u64, made.settled.into(), made.distances, total as u64];
            // "answered shades past the count are zeros"
            coordinates[..3 * ask.count].copy_from_slice(&coordinates_of(&made.shades));
            // "Lent entries past those filled keep their values"
            members.iter_mut().zip(&made.members).for_each(|(place, &member)| *place = member as u32);
            totals[..made.totals.len()].copy_from_slice(&made.totals);
        }
        let fields = vec![
            ("rounds, settled, distances, final total", Values::Longs(answer.to_vec())),
            ("shades", Values::Words(coordinates.to_vec())),
            ("members", Values::Words(members)),
            ("totals", Values::Longs(totals)),
        ];
        Outcome { refusal, fields }
    }
}
