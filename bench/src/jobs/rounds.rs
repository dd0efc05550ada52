//! Jobs of rounds and runs.
use super::ACCEPTED;
use crate::forms::first::group_counted;
use crate::forms::groups::past_mean;
use crate::forms::rounds::{self, group_plain, group_short, Grouping};
use crate::forms::run::{self, Way, USUAL};
use crate::pictures::Picture;
use crate::race::{race, row, timed, Form, Pace};
use crate::table::Table;
use kohlenfloh::calls::{self, Ran};
use kohlenfloh::raw::KF_MOST_COORDINATES;
use kohlenfloh::Refusal;

/// A kind of run: shades move to the means; they step past them; or they move to them beside fixed ones, three bytes
/// each.
#[derive(Clone, Copy)]
pub enum RunKind<'a> {
    Lloyd,
    Jancey,
    Fixed(&'a [u8]),
}

impl<'a> RunKind<'a> {
    /// The job's name.
    pub fn job(self) -> String {
        match self {
            RunKind::Lloyd => "run".into(),
            RunKind::Jancey => "Jancey run".into(),
            RunKind::Fixed(fixed) => format!("run with {} fixed", fixed.len() / 3),
        }
    }

    /// The usual form in Rust.
    fn usual(self) -> Way<'a> {
        match self {
            RunKind::Lloyd => USUAL,
            RunKind::Jancey => Way { rule: past_mean, ..USUAL },
            RunKind::Fixed(fixed) => Way { fixed, ..USUAL },
        }
    }

    /// A run by the proved library.
    fn proved(
        self,
        table: &Table,
        [count, limit]: [usize; 2],
        members: &mut [u32],
        totals: &mut [u64],
    ) -> Result<Ran, Refusal> {
        let (record, keys, weights) = (table.record, &table.keys[..], &table.weights[..]);
        match self {
            RunKind::Lloyd => calls::run(record, keys, weights, count, limit, members, totals),
            RunKind::Jancey => calls::run_jancey(record, keys, weights, count, limit, members, totals),
            RunKind::Fixed(fixed) => calls::run_fixed(record, keys, weights, fixed, count, limit, members, totals),
        }
    }
}

/// So many shades to fix: in whole levels those with which a run of a table begins, so that one that is to go on from
/// them begins with nearly the same shades.
pub fn stock(table: &Table, fixed: usize) -> Vec<u8> {
    starts(table, fixed).iter().map(|coordinate| ((coordinate + 8) / 16) as u8).collect()
}

/// What a run leaves in the memory it is lent, and its answer: rounds made, settled as 1 or 0, distances, final total.
#[derive(Clone, PartialEq)]
pub struct Run {
    shades: Vec<u32>,
    members: Vec<u32>,
    totals: Vec<u64>,
    pub answer: [u64; 4],
}

impl Run {
    /// Room for a run over `used` entries with at most `limit` rounds.
    fn room(used: usize, limit: usize) -> Run {
        Run { shades: vec![0; KF_MOST_COORDINATES], members: vec![1; used], totals: vec![0; limit], answer: [0; 4] }
    }
}

/// A run of `count` shades by the proved library: the seconds of the call, and what it leaves.
pub fn proved_run(kind: RunKind<'_>, table: &Table, count: usize, limit: usize) -> (f64, Run) {
    let mut done = Run::room(table.used(), limit);
    let (members, totals) = (&mut done.members, &mut done.totals);
    let (seconds, ran) = timed(|| kind.proved(table, [count, limit], members, totals));
    let ran = ran.expect(ACCEPTED);
    done.shades.copy_from_slice(&ran.shades);
    done.answer = [ran.rounds as u64, u64::from(ran.settled), ran.distances, ran.total];
    (seconds, done)
}

/// A single round by the proved library: total, shades moved, distances.
pub fn proved_round(table: &Table, kind: Kind, coordinates: &mut [u32], members: &mut [u32]) -> [u64; 3] {
    let round = match kind {
        Kind::Plain => calls::plain_round(table.record, &table.keys, &table.weights, coordinates, members),
        Kind::First | Kind::Late => calls::short_round(table.record, &table.keys, &table.weights, coordinates, members),
    };
    let round = round.expect(ACCEPTED);
    [round.total, round.moved, round.distances]
}

/// What stands before a round, or after a run: the shades' coordinates, and the members.
#[derive(Clone)]
pub struct State {
    pub coordinates: Vec<u32>,
    pub members: Vec<u32>,
}

/// The state after so many rounds of a run; after none, starting shades and every colour in shade 0.
pub fn state(table: &Table, count: usize, rounds_made: usize) -> State {
    let done = if rounds_made > 0 {
        proved_run(RunKind::Lloyd, table, count, rounds_made).1
    } else {
        let mut done = Run::room(table.used(), 0);
        let entries = (&table.keys[..], &table.weights[..]);
        run::run(USUAL, table.record, entries, count, &mut done.members, &mut [], &mut done.shades);
        done
    };
    State { coordinates: done.shades[..3 * count].to_vec(), members: done.members }
}

/// The starting shades of a run, as coordinates.
pub fn starts(table: &Table, count: usize) -> Vec<u32> {
    state(table, count, 0).coordinates
}

/// What a round answers and leaves.
pub type Outcome = ([u64; 3], Vec<u32>, Vec<u32>);

/// A round from a state, its copy made before the clock starts.
pub fn one(before: &State, round: impl FnOnce(&mut [u32], &mut [u32]) -> [u64; 3]) -> (f64, Outcome) {
    let mut after = before.clone();
    let (seconds, answer) = timed(|| round(&mut after.coordinates, &mut after.members));
    (seconds, (answer, after.coordinates, after.members))
}

/// The kinds of single rounds: plain, a run's first, and a late shortened one.
#[derive(Clone, Copy, PartialEq)]
pub enum Kind {
    Plain,
    First,
    Late,
}

/// A single round from a state.
pub fn single(pace: Pace, kind: Kind, picture: &Picture, table: &Table, before: &State) {
    let (job, same): (_, Grouping) = match kind {
        Kind::Plain => ("plain round", group_plain),
        Kind::First => ("short round 1", group_short),
        Kind::Late => ("late short round", group_short),
    };
    let rust = |grouping: Grouping| {
        one(before, |coordinates, members| {
            rounds::round(grouping, table.record, (&table.keys, &table.weights), coordinates, members)
        })
    };
    let mut proved = || one(before, |coordinates, members| proved_round(table, kind, coordinates, members));
    let (mut second, mut third) = (|| rust(same), || rust(group_counted));
    let mut forms: Vec<Form<Outcome>> = vec![&mut proved, &mut second];
    if kind == Kind::First {
        forms.push(&mut third);
    }
    let times = race(pace, job, &mut forms);
    let job = format!("{job}, k = {}", before.coordinates.len() / 3);
    row(&job, &picture.name, ("colour", table.used() as f64), &times, "blocks, counted");
}

/// A whole run.
pub fn whole(pace: Pace, kind: RunKind<'_>, picture: &Picture, table: &Table, [count, limit]: [usize; 2]) {
    let rust = |way: Way| {
        let mut done = Run::room(table.used(), limit);
        let (seconds, answer) = timed(|| {
            let entries = (&table.keys[..], &table.weights[..]);
            run::run(way, table.record, entries, count, &mut done.members, &mut done.totals, &mut done.shades)
        });
        (seconds, Run { answer, ..done })
    };
    let mut proved = || proved_run(kind, table, count, limit);
    let usual = kind.usual();
    let other = Way { first: group_counted, onward: true, ..usual };
    let times = race(pace, &kind.job(), &mut [&mut proved, &mut || rust(usual), &mut || rust(other)]);
    let [rounds, ..] = proved().1.answer;
    let unit = ("colour and round", table.used() as f64 * rounds as f64);
    let job = format!("{}, limit {limit}, k = {count}", kind.job());
    row(&job, &picture.name, unit, &times, "first round in blocks, sums go on");
}
