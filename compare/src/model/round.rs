//! A round, plain or shortened, and the call of a single one.
use std::ops::Range;

use super::shade::{bad_centre, bad_coordinates, colours_of, coordinates_of, distance, shades_of, Colour, Point};
use super::slip::Slip;
use super::{when, Model, BAD_CENTRE, BAD_COUNT, BAD_MEMBER, BAD_TABLE, SHORT_ROOM};
use crate::ask::{Round, Rule, Search};
use crate::outcome::{Outcome, Values};

/// A colour of one pixel whose levels are 0.
const BLACK: Colour = Colour { point: [0; 3], weight: 1 };

/// How the shades of a round move: by a rule, but for those that are held, by their numbers.
#[derive(Clone)]
pub struct Moves {
    pub rule: Rule,
    pub held: Range<usize>,
}

impl From<Rule> for Moves {
    fn from(rule: Rule) -> Moves {
        Moves { rule, held: 0..0 }
    }
}

/// What a round makes: the grouping, the moved shades, and the answer's three numbers.
pub struct Made {
    pub members: Vec<usize>,
    pub shades: Vec<Point>,
    pub total: u128,
    pub moved: u64,
    pub distances: u64,
}

/// The sum over colours of weight times distance to the shade joined.
pub fn total_of(colours: &[Colour], members: &[usize], shades: &[Point]) -> u128 {
    let each = colours.iter().zip(members);
    each.map(|(colour, &member)| colour.weight * distance(colour.point, shades[member]) as u128).sum()
}

impl Model {
    /// The shades that a colour looks at. Plain: all of them. Shortened, with former shade p at distance d: p, and
    /// "another shade q exactly when the distance between p and q is at most 4d".
    fn looked_at(&mut self, point: Point, former: Option<usize>, shades: &[Point]) -> Vec<(usize, Point)> {
        let all = shades.iter().copied().enumerate();
        let Some(p) = former else { return all.collect() };
        let d = distance(point, shades[p]);
        let mut some = Vec::new();
        for (q, shade) in all {
            let gap = distance(shades[p], shade);
            self.meet_if(q != p && gap == 4 * d && d > 0, "a gap of exactly 4d");
            self.meet_if(q != p && gap == 0, "a twin of the former shade");
            let near = if self.slips(Slip::SkipsAShadeAtExactlyFourD) { gap < 4 * d } else { gap <= 4 * d };
            if q == p || near {
                some.push((q, shade));
            }
        }
        some
    }

    /// "Each shade moves to the rounded mean of its group. A shade with no group stays." By Jancey's rule it moves past
    /// the mean, and "Empty groups stay" (document 02). These are the places of all shades, as if none were held.
    fn led(&mut self, moves: &Moves, colours: &[Colour], members: &[usize], shades: &[Point]) -> Vec<Point> {
        let mut moved = Vec::new();
        for (number, &shade) in shades.iter().enumerate() {
            let joined = colours.iter().zip(members).filter(|pair| *pair.1 == number).map(|pair| *pair.0);
            let mut group: Vec<Colour> = joined.collect();
            if self.slips(Slip::LeavesWeightsOutOfAGroupsMean) {
                group.iter_mut().for_each(|colour| colour.weight = 1);
            }
            let held = moves.held.contains(&number);
            self.meet_if(group.is_empty(), if held { "a fixed shade with no group" } else { "an empty group" });
            moved.push(match (moves.rule, group.is_empty(), self.slip) {
                (_, true, Some(Slip::ResetsAnEmptyShade)) => [0; 3],
                (Rule::Jancey, true, Some(Slip::LeapsAnEmptyShade)) => self.past_mean(&[BLACK], shade),
                (_, true, _) => shade,
                (Rule::Lloyd, false, _) => self.mean_of(&group),
                (Rule::Jancey, false, _) => self.past_mean(&group, shade),
            });
        }
        moved
    }

    /// A round on good input; formers are given where it is the shortened one.
    pub fn one_round(
        &mut self,
        moves: &Moves,
        colours: &[Colour],
        shades: &[Point],
        formers: Option<&[usize]>,
    ) -> Made {
        let mut members = Vec::new();
        let mut distances = 0;
        for (place, colour) in colours.iter().enumerate() {
            let looked_at = self.looked_at(colour.point, formers.map(|all| all[place]), shades);
            // "The plain round counts the number of shades for each colour." Shortened: "the sum over table colours of
            // 1 plus the number of such q; distances between shades aren't counted."
            distances += looked_at.len() as u64;
            // "Each table colour joins the nearest shade; at a tie, the lowest number."
            members.push(self.nearest(colour.point, &looked_at));
        }
        let led = self.led(moves, colours, &members, shades);
        // "whole-level shades that never move" (document 02)
        let stays = |number: usize| moves.held.contains(&number) && !self.slips(Slip::MovesAFixedShade);
        let each = shades.iter().zip(&led).enumerate();
        let after: Vec<Point> = each.map(|(number, (was, to))| if stays(number) { *was } else { *to }).collect();
        self.meet_if((1..shades.len()).any(|q| shades[..q].contains(&shades[q])), "twin shades");
        // "against the shades as they stood before step 3"
        let before = if self.slips(Slip::RecordsTheTotalAfterTheMove) { &after } else { shades };
        let total = total_of(colours, &members, before);
        let counted = if self.slips(Slip::CountsAHeldShadeAsMoved) { &led } else { &after };
        let moved = shades.iter().zip(counted).filter(|(was, is)| was != is).count() as u64;
        self.meet_if(moved == 0 && led != after, "settled with a fixed shade off its mean");
        Made { members, shades: after, total, moved, distances }
    }

    /// "Single round: 2, 4, 8, 7, 9 (plain: no 9)."
    pub fn round(&mut self, ask: &Round) -> Outcome {
        let used = usize::try_from(ask.table.record.used).unwrap_or(usize::MAX);
        let count = ask.coordinates.len() / 3;
        // "members fewer than the used entries"
        let short = when(ask.members.len() < used, "members fewer than used");
        // "a used entry's former shade number not below the count"
        let formers = ask.members.iter().take(used);
        let bad_member = ask.search == Search::Shortened && formers.clone().any(|&former| former as usize >= count);
        let bad_table = self.bad_table(&ask.table);
        let refusal = self.first_of(&[
            (BAD_TABLE, bad_table),
            (BAD_COUNT, bad_coordinates(&ask.coordinates)),
            (BAD_CENTRE, bad_centre(&ask.coordinates)),
            (SHORT_ROOM, short),
            (BAD_MEMBER, when(bad_member, "a former shade not below the count")),
        ]);
        // "A refusal answers its number and zeros", "and no lent slice changes".
        let mut outcome = [0; 3];
        let mut coordinates = ask.coordinates.clone();
        let mut members = ask.members.clone();
        if refusal == 0 {
            let former_numbers: Vec<usize> = formers.map(|&former| former as usize).collect();
            let formers = (ask.search == Search::Shortened).then_some(&former_numbers[..]);
            let shades = shades_of(&ask.coordinates);
            self.meet_if(used == 0, "a round on an empty table");
            let made = self.one_round(&Rule::Lloyd.into(), &colours_of(&ask.table), &shades, formers);
            outcome = [made.total as u64, made.moved, made.distances];
            coordinates = coordinates_of(&made.shades);
            // "members past the used entries keep their values"
            members.iter_mut().zip(&made.members).for_each(|(place, &member)| *place = member as u32);
        }
        let fields = vec![
            ("total, moved, distances", Values::Longs(outcome.to_vec())),
            ("coordinates", Values::Words(coordinates)),
            ("members", Values::Words(members)),
        ];
        Outcome { refusal, fields }
    }
}
