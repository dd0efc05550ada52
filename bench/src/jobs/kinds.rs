//! Kinds of run beside Lloyd's: what a round costs, and how many rounds a Jancey run makes.
use super::rounds::{proved_run, RunKind};
use crate::pictures::Picture;
use crate::race::{figure, race, Pace};
use crate::table::Table;
use kohlenfloh::RunOptions;

/// The heading of the table of what a Jancey round costs.
pub const JANCEY_COSTS: &str =
    "| A Jancey round beside a Lloyd round | Picture | Lloyd: ns a colour and round | Jancey | Ratio \
| Lloyd: ns a distance | Jancey | Ratio |\n|---|---|---|---|---|---|---|---|";

/// The heading of the table of what a round with fixed shades costs.
pub const FIXED_COSTS: &str =
    "| A round with fixed shades beside one without | Picture | Rounds | Without: ns a colour and round | Fixed \
| Ratio | Without: ns a distance | Fixed | Ratio |\n|---|---|---|---|---|---|---|---|---|";

/// The heading of the table of rounds.
pub const ROUNDS: &str = "| Rounds to rest, limit 200 | k | Lloyd: rounds | ms | final total | Jancey: rounds | ms \
| final total | Ratio of the totals |\n|---|---|---|---|---|---|---|---|---|";

/// A row of what a round of a kind costs beside a round of Lloyd's, by the best of runs made in turn. With a limit of 1
/// both kinds group alike, or nearly so beside fixed shades, and the move alone differs; after that they go different
/// ways, and the distances worked out differ too. Beside fixed shades a run may be settled long before, so that its
/// rounds are told: what the starting shades cost is shared by these.
pub fn cost(pace: Pace, kind: RunKind<'_>, picture: &Picture, table: &Table, [count, limit]: [usize; 2]) {
    let once = |kind: RunKind<'_>| (proved_run(kind, table, count, limit).0, ());
    let times = race(pace, "kinds of run", &mut [&mut || once(RunKind::Lloyd), &mut || once(kind)]);
    let answers = [RunKind::Lloyd, kind].map(|kind| proved_run(kind, table, count, limit).1.answer);
    let each = |units: [f64; 2]| {
        let [lloyd, other] = [0, 1].map(|kind| times[kind] * 1e9 / units[kind]);
        format!("{} | {} | {:.3}", figure(lloyd), figure(other), other / lloyd)
    };
    let rounds = answers.map(|[rounds, ..]| table.used() as f64 * rounds as f64);
    let distances = answers.map(|[_, _, distances, _]| distances as f64);
    let (job, costs) = (format!("limit {limit}, k = {count}"), [each(rounds), each(distances)].join(" | "));
    match kind {
        RunKind::Fixed(fixed) => {
            let [without, with] = answers.map(|[rounds, ..]| rounds);
            let fixed = fixed.len() / 3;
            println!("| {job}, {fixed} fixed | {} | {without} and {with} | {costs} |", picture.name);
        }
        _ => println!("| {job} | {} | {costs} |", picture.name),
    }
}

/// A row of the rounds that Lloyd's run and Jancey's make, with the time of one run and the final total.
pub fn rounds(picture: &Picture, table: &Table, count: usize) {
    let [lloyd, jancey] = [RunKind::Lloyd, RunKind::Jancey].map(|kind| {
        let (seconds, run) = proved_run(kind, table, count, RunOptions::MOST_ROUNDS);
        let [rounds, settled, _, total] = run.answer;
        let rounds = if settled == 1 { rounds.to_string() } else { format!("{rounds}, not settled") };
        (format!("{rounds} | {} | {total}", figure(1e3 * seconds)), total as f64)
    });
    let ratio = jancey.1 / lloyd.1;
    println!("| {} | {count} | {} | {} | {ratio:.4} |", picture.name, lloyd.0, jancey.0);
}
