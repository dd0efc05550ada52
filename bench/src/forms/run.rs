//! The run: starting shades with a distance kept for each colour in the members, then rounds; some shades may be fixed.
use super::groups::{to_mean, Groups, Rule, Shades};
use super::onward::group_onward;
use super::rounds::{group_short, Grouping};
use super::{colour_of, distance, key_of, table, Point};
use kohlenfloh::Record;

/// The rounded mean of a table, from the record's sums.
fn mean_of(record: Record) -> Point {
    let pixels = record.pixels;
    [record.red, record.green, record.blue].map(|sum| ((32 * sum + pixels) / (2 * pixels)) as i32)
}

/// Lowers the kept distances to those to `shade`: the first place of the greatest that is left.
fn farthest(keys: &[u32], shade: Point, kept: &mut [u32]) -> usize {
    let (mut far, mut at) = (0, 0);
    for (block, (keys, kept)) in keys.chunks(512).zip(kept.chunks_mut(512)).enumerate() {
        let mut greatest = 0;
        for (key, kept) in keys.iter().zip(kept.iter_mut()) {
            let [r, g, b] = [(key >> 16) as i16 * 16, (key >> 8 & 255) as i16 * 16, (key & 255) as i16 * 16];
            let [r, g, b] = [r - shade[0] as i16, g - shade[1] as i16, b - shade[2] as i16].map(|c| c as i32);
            *kept = (*kept).min((r * r + g * g + b * b) as u32);
            greatest = greatest.max(*kept);
        }
        if greatest > far {
            far = greatest;
            at = 512 * block + kept.iter().position(|kept| *kept == greatest).expect("the greatest is there");
        }
    }
    at
}

/// The starting shades, from fixed ones or else from the mean; every member is 0 then.
fn starts(record: Record, keys: &[u32], fixed: &[u8], count: usize, members: &mut [u32]) -> Shades {
    let mut shades = Shades { count, at: [[0; 3]; 64] };
    shades.at[0] = mean_of(record);
    for (shade, levels) in shades.at.iter_mut().zip(fixed.chunks_exact(3)) {
        *shade = colour_of(key_of(levels));
    }
    members.fill(u32::MAX);
    for number in 1..count {
        let place = farthest(keys, shades.at[number - 1], members);
        if 3 * number >= fixed.len() {
            shades.at[number] = colour_of(keys[place]);
        }
    }
    members.fill(0);
    shades
}

/// How many keys are those of no fixed shade: each fixed one that was not met before is looked for by halving.
fn colours_left(keys: &[u32], fixed: &[u8]) -> usize {
    let shades = fixed.chunks_exact(3).enumerate();
    let met = shades.filter(|(number, levels)| {
        let new = fixed.chunks_exact(3).take(*number).all(|other| other != *levels);
        new && keys.binary_search(&key_of(levels)).is_ok()
    });
    keys.len() - met.count()
}

/// How the rounds of a run are made: the first by a grouping, the others along rows, with sums taken anew or going on;
/// the rule by which shades move; and the shades that are fixed, three bytes each.
#[derive(Clone, Copy)]
pub struct Way<'a> {
    pub first: Grouping,
    pub onward: bool,
    pub rule: Rule,
    pub fixed: &'a [u8],
}

/// The usual way.
pub const USUAL: Way = Way { first: group_short, onward: false, rule: to_mean, fixed: &[] };

/// A run of `count` shades; totals lent are the limit. The answer is rounds, settled, distances, final total.
pub fn run(
    way: Way,
    record: Record,
    (keys, weights): (&[u32], &[u32]),
    count: usize,
    members: &mut [u32],
    totals: &mut [u64],
    coordinates: &mut [u32],
) -> [u64; 4] {
    assert!(table::is_table_packed(record, keys, weights), "bad table");
    let (used, held) = (record.used as usize, way.fixed.len() / 3);
    assert!((held + 1..=64).contains(&count) && 3 * held == way.fixed.len(), "bad count");
    assert!(count - held <= colours_left(&keys[..used], way.fixed), "few colours");
    assert!(totals.len() <= 200 && members.len() >= used, "refused");
    let (keys, weights, members) = (&keys[..used], &weights[..used], &mut members[..used]);
    let mut shades = starts(record, keys, way.fixed, count, members);
    let (mut rounds, mut settled, mut distances) = (0, 0, 0);
    let mut groups = Groups::new();
    while settled == 0 && rounds < totals.len() {
        let worked;
        if way.onward && rounds > 0 {
            worked = group_onward(keys, weights, &shades, members, &mut groups);
        } else {
            let grouping = if rounds == 0 { way.first } else { group_short };
            (groups, worked) = grouping(keys, weights, &shades, members);
        }
        totals[rounds] = groups.total;
        rounds += 1;
        distances += worked;
        settled = (groups.move_shades(way.rule, held, &mut shades) == 0) as u64;
    }
    shades.write(&mut coordinates[..3 * count]);
    let entries = keys.iter().zip(weights).zip(members.iter());
    let total = entries.map(|((key, weight), member)| {
        *weight as u64 * distance(colour_of(*key), shades.at[(*member & 63) as usize]) as u64
    });
    [rounds as u64, settled, distances, total.sum()]
}
