//! Where a shade with a group moves in a run by Jancey's rule, coordinate by coordinate.
use super::shade::{sums_of_colours, Colour, Point};
use super::slip::Slip;
use super::{Model, MOST_COORDINATE};

/// Where one coordinate of a shade with a group may move. How far a value is from the exact mean is kept times the
/// group's pixels.
struct Step {
    /// Nine fifths of the way to the exact mean, rounded and held.
    held: i128,
    /// What is used instead.
    instead: i128,
    /// How far the step is from the exact mean.
    off: i128,
    /// How far the old value was.
    was_off: i128,
}

impl Model {
    /// "Per coordinate the new value is old + 9/5 × (mean − old) with the exact mean, rounded to the nearest sixteenth,
    /// halves up, then held to 0 to 4080. If that lies as far from the exact mean as the old value did, or farther, the
    /// rounded mean is used instead" (document 02).
    pub fn past_mean(&mut self, group: &[Colour], old: Point) -> Point {
        if self.slips(Slip::RunsByLloyd) {
            return self.mean_of(group);
        }
        let (pixels, sums) = sums_of_colours(group);
        let steps = [0, 1, 2].map(|channel| self.step(old[channel].into(), sums[channel] as i128, pixels as i128));
        let nearer = steps.each_ref().map(|step| self.nearer(step.off, step.was_off));
        let falls_back = nearer.iter().zip(&steps).any(|(nearer, step)| !nearer && step.was_off > 0);
        self.meet_if(falls_back && nearer.contains(&true), "one coordinate falls back where another steps");
        let squares = |off: fn(&Step) -> i128| steps.iter().map(|step| off(step).pow(2)).sum();
        let by_all = self.nearer(squares(|step| step.off), squares(|step| step.was_off));
        [0, 1, 2].map(|channel| {
            let taken = if self.slips(Slip::FallsBackByTheWholeShade) { by_all } else { nearer[channel] };
            (if taken { steps[channel].held } else { steps[channel].instead }) as i64
        })
    }

    /// Whether a value so far off is taken where the old one was so far off.
    fn nearer(&self, off: i128, was_off: i128) -> bool {
        off < was_off || off == was_off && self.slips(Slip::KeepsAValueAsFar)
    }

    /// The step of one coordinate, in a group of so many pixels with this coordinate sum.
    fn step(&mut self, old: i128, sum: i128, pixels: i128) -> Step {
        let mean = i128::from(self.rounded_mean(sum as u128, pixels as u128));
        // The mean is `to` / `pixels`, and the new value `over` / `under`.
        let to = if self.slips(Slip::StepsFromTheRoundedMean) { mean * pixels } else { sum };
        let [nine, fifths] = if self.slips(Slip::StepsTwiceTheWay) { [2, 1] } else { [9, 5] };
        let (over, under) = (fifths * pixels * old + nine * (to - pixels * old), fifths * pixels);
        let half = if self.slips(Slip::RoundsAStepDownAtAHalf) { under - 1 } else { under };
        let far = (2 * over + half).div_euclid(2 * under);
        let held = match self.slip {
            Some(Slip::HoldsNothingTo0) => far.min(MOST_COORDINATE.into()),
            Some(Slip::HoldsNothingTo4080) => far.max(0),
            _ => far.clamp(0, MOST_COORDINATE.into()),
        };
        let off = |place: i128| (pixels * place - sum).abs();
        let (seen, was_off) = match self.slip {
            Some(Slip::ComparesBeforeHolding) => (off(far), off(old)),
            Some(Slip::ComparesWithTheRoundedMean) => ((held - mean).abs(), (old - mean).abs()),
            _ => (off(held), off(old)),
        };
        self.meet_if(far > MOST_COORDINATE.into(), "a step held to 4080");
        self.meet_if(far < 0, "a step held to 0");
        self.meet_if((2 * over).rem_euclid(2 * under) == under, "a step at a half");
        self.meet_if(off(old) == 0, "an old value on the exact mean");
        self.meet_if(off(held) == off(old) && off(old) > 0, "a step as far as the old value");
        self.meet_if(off(held) > off(old), "a step farther than the old value");
        let by_holding = off(held) < off(old) && off(old) <= off(far) && held != mean;
        self.meet_if(by_holding, "a held step nearer where it would not be unheld");
        let instead = if self.slips(Slip::TakesTheOldValueWhereAsFar) { old } else { mean };
        Step { held, instead, off: seen, was_off }
    }
}
