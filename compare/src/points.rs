//! What is promised of every accepted run, tried on the library's answers in exact whole numbers. By either rule:
//! totals never rise, and in a settled run each colour is in its nearest shade and each free shade with a group on its
//! rounded mean. By Lloyd's rule: no other free shades are better for the last grouping, and how near a group comes to
//! the least that fractional shades could cost. Of fixed shades: they are in front, as they were given.
use crate::ask::{Run, RunFixed};
use crate::model::fixed::fixed_shades;
use crate::model::shade::{colours_of, coordinates_of, distance, shades_of, Colour, Point};
use crate::outcome::{Difference, Outcome};

/// A claim that must hold of the numbers beside it.
fn claim(holds: bool, what: &str, numbers: &[i128]) -> Result<(), Difference> {
    if holds {
        return Ok(());
    }
    Err(Difference::new(what, format!("{numbers:?}"), "the claim"))
}

/// A shade of an accepted run, and the colours that its last round put in its group.
type Grouped = (Point, Vec<Colour>);

/// The claims on the outcome of an accepted run by Lloyd's rule.
pub fn of_accepted_run(ask: &Run, seen: &Outcome) -> Result<(), Difference> {
    of_free_shades(&of_any_run(ask, 0, seen)?)
}

/// The claims on the outcome of an accepted run with fixed shades.
pub fn of_fixed_run(ask: &RunFixed, seen: &Outcome) -> Result<(), Difference> {
    let fixed = fixed_shades(&ask.fixed);
    let front = &seen.words("shades")[..3 * fixed.len()];
    Difference::unless_equal("fixed shades in front, times 16", front, &coordinates_of(&fixed)[..])?;
    of_free_shades(&of_any_run(&ask.run, fixed.len(), seen)?[fixed.len()..])
}

/// The claims on the outcome of an accepted run by Jancey's rule.
pub fn of_jancey_run(ask: &Run, seen: &Outcome) -> Result<(), Difference> {
    of_any_run(ask, 0, seen).map(drop)
}

/// The claims on free shades that stand where Lloyd's rule put them, each with its group.
fn of_free_shades(shades: &[Grouped]) -> Result<(), Difference> {
    shades.iter().try_for_each(|(shade, group)| {
        on_mean(group, *shade)?;
        of_group(group, *shade)
    })
}

/// The claims on the outcome of an accepted run by either rule, of which so many shades are fixed; its shades, each
/// with its group.
fn of_any_run(ask: &Run, fixed: usize, seen: &Outcome) -> Result<Vec<Grouped>, Difference> {
    let answer = seen.longs("rounds, settled, distances, final total");
    let (rounds, settled, total) = (answer[0] as usize, answer[1] == 1, i128::from(answer[3]));
    let totals: Vec<i128> = seen.longs("totals")[..rounds].iter().map(|&one| one.into()).collect();
    claim(totals.windows(2).all(|pair| pair[1] <= pair[0]), "totals never rise", &totals)?;
    let last = *totals.last().expect("an accepted run makes a round");
    claim(total <= last, "the final total is not above the last", &[total, last])?;
    claim(!settled || total == last, "a settled run's final total is the last", &[total, last])?;
    let (coordinates, past) = seen.words("shades").split_at(3 * ask.count);
    claim(past.iter().all(|&one| one == 0), "shades past the count are zeros", &[ask.count as i128])?;
    let (shades, members) = (shades_of(coordinates), &seen.words("members")[..ask.table.used()]);
    let colours = colours_of(&ask.table);
    let mut all = Vec::new();
    for (number, &shade) in shades.iter().enumerate() {
        let joined = colours.iter().zip(members).filter(|pair| *pair.1 as usize == number);
        let group: Vec<Colour> = joined.map(|pair| *pair.0).collect();
        if settled {
            at_rest(&group, number, &shades)?;
        }
        if settled && number >= fixed {
            on_mean(&group, shade)?;
        }
        all.push((shade, group));
    }
    let sum = all.iter().map(|(shade, group)| cost(group, *shade)).sum();
    claim(sum == total, "the groups' costs add up to the final total", &[sum, total])?;
    Ok(all)
}

/// The claim on one shade of a settled run: to each colour of its group no other shade is nearer, and none as near has
/// a lower number.
fn at_rest(group: &[Colour], number: usize, shades: &[Point]) -> Result<(), Difference> {
    for colour in group {
        let near = distance(colour.point, shades[number]);
        let nearest = shades.iter().enumerate().all(|(other, &shade)| {
            let there = distance(colour.point, shade);
            there > near || there == near && other >= number
        });
        claim(nearest, "a settled colour is in its nearest shade", &[number as i128, near.into()])?;
    }
    Ok(())
}

/// The claim that a shade stands on its group's rounded mean, if it has a group: with pixel count W and coordinate sum
/// S, twice a coordinate is above 2S/W - 1 and at most 2S/W + 1.
fn on_mean(group: &[Colour], shade: Point) -> Result<(), Difference> {
    let pixels = weighted(group, |_| 1);
    for (channel, &coordinate) in shade.iter().enumerate() {
        let sum = weighted(group, |colour| colour.point[channel].into());
        let off = 2 * (pixels * i128::from(coordinate) - sum);
        let on_mean = group.is_empty() || -pixels < off && off <= pixels;
        claim(on_mean, "a shade is on its group's rounded mean", &[channel as i128, coordinate.into(), off, pixels])?;
    }
    Ok(())
}

/// The sum of weight times something over a group.
fn weighted(group: &[Colour], of: impl Fn(&Colour) -> i128) -> i128 {
    group.iter().map(|colour| colour.weight as i128 * of(colour)).sum()
}

/// What a group costs: the sum of weight times distance to a shade.
fn cost(group: &[Colour], shade: Point) -> i128 {
    weighted(group, |colour| (0..3).map(|channel| i128::from(colour.point[channel] - shade[channel]).pow(2)).sum())
}

/// The claims on one group and its shade. With pixel count W, coordinate sums S and sum of squared coordinates Q the
/// least is (W·Q − S1² − S2² − S3²) / W; both are multiplied by 4W. Each rounded coordinate is within half a sixteenth
/// of its mean, so that the cost is at most 3W/4 above the least.
fn of_group(group: &[Colour], shade: Point) -> Result<(), Difference> {
    let here = cost(group, shade);
    for channel in 0..3 {
        for step in [-1, 1] {
            let mut beside = shade;
            beside[channel] += step;
            let there = cost(group, beside);
            claim(there >= here, "a sixteenth beside is no better", &[channel as i128, step.into(), there, here])?;
        }
    }
    let w = weighted(group, |_| 1);
    let q = weighted(group, |colour| colour.point.iter().map(|&one| i128::from(one).pow(2)).sum());
    let s = [0, 1, 2].map(|channel| weighted(group, |colour| colour.point[channel].into()));
    let least = 4 * (w * q - s.iter().map(|one| one.pow(2)).sum::<i128>());
    let times = 4 * w * here;
    claim(least <= times, "a group costs no less than the least", &[times, least])?;
    claim(times <= least + 3 * w * w, "a group costs at most 3W²/4W more than the least", &[times, least, w])
}
