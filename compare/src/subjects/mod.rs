//! The subjects of comparison: each makes cases by chance, has the bench compare their calls, and says what they must
//! meet on the way.
mod add;
mod boundaries;
mod fixed;
mod groups;
mod jancey;
mod map;
mod netpbm;
mod palette;
mod picture;
mod rounds;
mod run;
mod strips;
mod tables;
mod twins;

use crate::bench::Bench;
use crate::chance::Chance;
use crate::model::slip::Slip;
use crate::outcome::Difference;

/// A subject: how many cases it makes, one case, and the edge cases and refusals that so many cases must meet.
pub struct Subject {
    pub name: &'static str,
    pub cases: u64,
    pub one_case: fn(&mut Bench, &mut Chance) -> Result<(), Difference>,
    pub meets: &'static [&'static str],
    pub refuses: &'static [u32],
}

/// Every subject.
pub const SUBJECTS: [Subject; 14] = [
    add::SUBJECT,
    rounds::SUBJECT,
    run::SUBJECT,
    jancey::SUBJECT,
    fixed::SUBJECT,
    palette::SUBJECT,
    groups::SUBJECT,
    map::SUBJECT,
    twins::SUBJECT,
    picture::SUBJECT,
    strips::SUBJECT,
    tables::SUBJECT,
    boundaries::SUBJECT,
    netpbm::SUBJECT,
];

/// What the parts of BAD TABLE are called where the model meets them, and the ways in which sums are untrue.
const BAD_TABLES: [&str; 17] = [
    "used above the room",
    "a key above 16,777,215",
    "a key not above the one before",
    "a weight of 0",
    "a pixel total that is not the sum",
    "a pixel total above 16,777,216",
    "a channel sum that is not that of the entries",
    "a sum and no used entry",
    "a red sum off by one",
    "a green sum off by one",
    "a blue sum off by one",
    "two sums off by one that cancel",
    "green and blue sums swapped",
    "a sum of 2^64 - 1",
    "a sum off by 2^32 or 2^48",
    "sums off that agree in 65536 R + 256 G + B",
    "sums off that agree in R + 16777216 B",
];

/// A failed case: its number (none where the cases as a whole fail), what failed, and what was asked.
pub struct Failure {
    pub case: Option<u64>,
    pub what: String,
    pub asked: Option<String>,
}

impl Subject {
    /// Compares so many cases from one on, with the model bent by a slip or not.
    pub fn compare(&self, slip: Option<Slip>, seed: u64, from: u64, cases: u64) -> (Bench, Result<(), Failure>) {
        let mut bench = Bench::default();
        bench.model.slip = slip;
        for case in from..from + cases {
            if let Err(difference) = (self.one_case)(&mut bench, &mut Chance::of_case(seed, case)) {
                let asked = bench.differed.take();
                return (bench, Err(Failure { case: Some(case), what: difference.to_string(), asked }));
            }
        }
        let missed = if cases < self.cases { Vec::new() } else { self.missed(&bench) };
        if missed.is_empty() {
            return (bench, Ok(()));
        }
        (bench, Err(Failure { case: None, what: format!("never met: {}", missed.join("; ")), asked: None }))
    }

    /// The edge cases and refusals that this subject means to meet and that did not come up.
    fn missed(&self, bench: &Bench) -> Vec<String> {
        let edges = self.meets.iter().filter(|what| !bench.model.met.contains_key(*what)).map(|what| what.to_string());
        let parts = BAD_TABLES.iter().filter(|_| self.refuses.contains(&2));
        let parts = parts.filter(|what| !bench.model.met.contains_key(*what)).map(|what| what.to_string());
        let refusals = self.refuses.iter().filter(|number| !bench.refusals.contains_key(number));
        edges.chain(parts).chain(refusals.map(|number| format!("refusal {number}"))).collect()
    }
}
