//! Single rounds and the kinds of run: a table's colours join their nearest shades, and the shades move.
use crate::calls::{self, Ran};
use crate::refusal::Refusal;
use crate::shades::Shades;
use crate::table::{Record, Table};

/// What is asked of a run: how many shades, and in how many rounds at most.
///
/// ```
/// use kohlenfloh::RunOptions;
///
/// let usual = RunOptions::shades(6);
/// let longer = RunOptions::shades(6).limit(RunOptions::MOST_ROUNDS);
/// assert_eq!((usual.count, usual.limit), (6, 0));
/// assert_eq!((longer.count, longer.limit), (6, 200));
/// ```
#[derive(Clone, Copy, Debug, PartialEq, Eq, Hash)]
#[non_exhaustive]
pub struct RunOptions {
    /// How many shades are looked for, 1 to [`Shades::MOST`]; fixed ones are among them.
    pub count: usize,
    /// The most rounds, at most [`RunOptions::MOST_ROUNDS`]; 0 means [`RunOptions::USUAL_LIMIT`].
    pub limit: usize,
}

impl RunOptions {
    /// The most rounds a run can make, and so the most totals it can leave: 200.
    pub const MOST_ROUNDS: usize = 200;

    /// The round limit where none is asked for: 100.
    pub const USUAL_LIMIT: usize = 100;

    /// The most shades of a run that can be fixed: 63, as one at least is free.
    pub const MOST_FIXED: usize = 63;

    /// A run that looks for so many shades, in the usual number of rounds.
    pub const fn shades(count: usize) -> RunOptions {
        RunOptions { count, limit: 0 }
    }

    /// The same run in at most so many rounds.
    pub const fn limit(self, limit: usize) -> RunOptions {
        RunOptions { limit, ..self }
    }
}

/// What a single round answers.
#[derive(Clone, Copy, Debug, PartialEq, Eq)]
#[non_exhaustive]
pub struct Round {
    /// The sum over colours of weight times distance to the shade joined, before the shades moved.
    pub total: u64,
    /// How many shades moved.
    pub moved: u64,
    /// How many distances were worked out.
    pub distances: u64,
}

/// What a run leaves and answers.
///
/// ```
/// use kohlenfloh::{RunOptions, Table};
///
/// let mut table = Table::with_room(16);
/// table.add(&[0, 0, 0, 0, 0, 0, 0, 0, 0, 10, 0, 0])?;
/// let run = table.run(RunOptions::shades(2).limit(1))?;
/// assert_eq!(run.members, [0, 1]);
/// assert_eq!(run.totals, [4800]);
/// assert!(!run.settled);
/// assert_eq!(run.total, 0);
/// # Ok::<(), kohlenfloh::Refusal>(())
/// ```
#[derive(Clone, Debug, PartialEq, Eq)]
#[non_exhaustive]
pub struct Run {
    /// The shades as the last round left them. [`Table::palette_of`] gives them in whole levels.
    pub shades: Shades,
    /// How many of them are fixed: those with the lowest numbers; 0 where [`Table::run_fixed`] did not make the run.
    pub fixed: usize,
    /// The number of the shade that each used entry joined in the last round.
    pub members: Vec<u32>,
    /// The total of each round, in the order of the rounds.
    pub totals: Vec<u64>,
    /// Rounds made.
    pub rounds: usize,
    /// Whether the last round moved no shade.
    pub settled: bool,
    /// The distances worked out in all rounds together.
    pub distances: u64,
    /// The final total: the last grouping against the final shades.
    pub total: u64,
}

impl Table {
    /// Looks for shades: maximin starting shades, then rounds to the first one that moves no shade, or to the limit. In
    /// a round each shade moves to the mean of its group; by [`Table::run_jancey`] it steps past it, and in
    /// [`Table::run_fixed`] some of them are given and stay.
    ///
    /// ```
    /// use kohlenfloh::{Refusal, RunOptions, Table};
    ///
    /// let mut table = Table::with_room(16);
    /// table.add(&[0, 0, 0, 0, 0, 0, 0, 0, 0, 10, 0, 0])?;
    /// let run = table.run(RunOptions::shades(1))?;
    /// assert_eq!(run.shades.coordinates(), [40, 0, 0]);
    /// assert_eq!((run.rounds, run.settled, run.total), (1, true, 19_200));
    /// assert_eq!(table.run(RunOptions::shades(3)), Err(Refusal::FewColours));
    /// # Ok::<(), Refusal>(())
    /// ```
    ///
    /// # Refusals
    /// BAD COUNT, FEW COLOURS, BAD LIMIT.
    pub fn run(&self, options: RunOptions) -> Result<Run, Refusal> {
        self.run_by(calls::run, 0, options)
    }

    /// Looks for shades by Jancey's rule: like [`Table::run`] in everything but where a shade with a group moves, which
    /// is past the mean of its group.
    ///
    /// Per coordinate the value it moves to is old + 9/5 × (mean − old) with the exact mean, rounded to the nearest
    /// sixteenth, halves up, then held to 0 to 4080. If that lies as far from the exact mean as the old value did, or
    /// farther, the rounded mean is used instead. A shade with no group stays.
    ///
    /// The totals never rise, and the final total is not above the last of them; in a settled run each shade with a
    /// group stands on its group's rounded mean. Two promises are those of [`Table::run`] alone: that no other shades
    /// give the last grouping a smaller total, and that this total is at most three quarters of the pixels above the
    /// least that fractional shades could give it. The two can end with different shades, and either can make fewer
    /// rounds.
    ///
    /// ```
    /// use kohlenfloh::{RunOptions, Table};
    ///
    /// let mut table = Table::with_room(16);
    /// table.add(&[0, 0, 0, 10, 0, 0])?;
    /// let run = table.run_jancey(RunOptions::shades(2))?;
    /// assert_eq!(run.totals, [6400, 4096, 2601, 1681, 1089, 676, 441, 289, 196, 121, 81, 49, 36, 25, 16, 9, 4, 0]);
    /// assert_eq!((run.rounds, run.settled), (18, true));
    ///
    /// let lloyd = table.run(RunOptions::shades(2))?;
    /// assert_eq!((lloyd.rounds, lloyd.settled), (2, true));
    /// assert_eq!(lloyd.shades, run.shades);
    /// # Ok::<(), kohlenfloh::Refusal>(())
    /// ```
    ///
    /// # Refusals
    /// BAD COUNT, FEW COLOURS, BAD LIMIT.
    pub fn run_jancey(&self, options: RunOptions) -> Result<Run, Refusal> {
        self.run_by(calls::run_jancey, 0, options)
    }

    /// Looks for shades beside some that are fixed from stock, each three whole levels R, G, B. They are part of the
    /// count, have the lowest numbers in the order given, and never move.
    ///
    /// Each further start is the table colour whose distance to its nearest shade so far is greatest, the lowest key at
    /// a tie; no shade begins on the table's mean. Then come rounds like those of [`Table::run`]: a colour joins its
    /// nearest shade, fixed or free, and each free shade moves to the mean of its group. The run is settled by a round
    /// in which no free shade moves.
    ///
    /// The totals, which are those of all groups, never rise. What is promised of the last grouping of [`Table::run`]
    /// holds here over the groups of the free shades: no other free shades give these a smaller total, and it is at
    /// most three quarters of their pixels above the least that fractional shades could give them.
    /// [`Table::palette_of`] gives each fixed shade its own levels.
    ///
    /// Fixed shades may be colours of the table. Two that are equal are taken, but no pixel can be mapped to their
    /// palette: [`Palette::map`](crate::Palette::map) refuses it by TWIN SHADE. Where none is to be fixed
    /// [`Table::run`] is the one to use.
    ///
    /// ```
    /// use kohlenfloh::{Refusal, RunOptions, Table};
    ///
    /// // A ground in yarn that is held, nearly black, beside a yarn that is still to be found.
    /// let mut table = Table::with_room(16);
    /// table.add(&[0, 0, 0, 0, 0, 0, 0, 0, 0, 60, 0, 0, 64, 0, 0])?;
    /// let run = table.run_fixed(&[[2, 0, 0]], RunOptions::shades(2))?;
    /// assert_eq!(run.shades.coordinates(), [32, 0, 0, 992, 0, 0]);
    /// assert_eq!((run.members.as_slice(), run.fixed, run.settled), (&[0, 1, 1][..], 1, true));
    /// assert_eq!(table.palette_of(&run)?.bytes(), [2, 0, 0, 62, 0, 0]);
    ///
    /// // One shade at least is free, and has a colour to begin with that is no fixed one.
    /// assert_eq!(table.run_fixed(&[[2, 0, 0]], RunOptions::shades(1)), Err(Refusal::BadCount));
    /// assert_eq!(table.run_fixed(&[[0, 0, 0]], RunOptions::shades(4)), Err(Refusal::FewColours));
    /// assert_eq!(table.run_fixed(&[], RunOptions::shades(2)), Err(Refusal::BadPalette));
    /// # Ok::<(), Refusal>(())
    /// ```
    ///
    /// # Refusals
    /// BAD PALETTE, for no fixed shade or more than [`RunOptions::MOST_FIXED`]; BAD COUNT, also for a count that is not
    /// above the number of fixed shades; FEW COLOURS, for fewer used entries unlike every fixed shade than there are
    /// free shades, where the count itself may be above the used entries; BAD LIMIT.
    pub fn run_fixed(&self, fixed: &[[u8; 3]], options: RunOptions) -> Result<Run, Refusal> {
        self.run_by(
            |record, keys, weights, count, limit, members, totals| {
                calls::run_fixed(record, keys, weights, fixed.as_flattened(), count, limit, members, totals)
            },
            fixed.len(),
            options,
        )
    }

    /// A run by one of the calls that make one, with so many fixed shades.
    fn run_by(
        &self,
        call: impl FnOnce(Record, &[u32], &[u32], usize, usize, &mut [u32], &mut [u64]) -> Result<Ran, Refusal>,
        fixed: usize,
        options: RunOptions,
    ) -> Result<Run, Refusal> {
        let RunOptions { count, limit } = options;
        let mut members = vec![0; self.used()];
        let mut totals = vec![0; RunOptions::MOST_ROUNDS];
        let ran = call(self.record(), self.keys(), self.weights(), count, limit, &mut members, &mut totals)?;
        totals.truncate(ran.rounds);
        Ok(Run {
            shades: Shades::held(ran.shades[..3 * count].to_vec()),
            fixed,
            members,
            totals,
            rounds: ran.rounds,
            settled: ran.settled,
            distances: ran.distances,
            total: ran.total,
        })
    }

    /// Makes one round in which each colour looks at every shade. The grouping is left in the members, one for each
    /// used entry, and the shades move.
    ///
    /// ```
    /// use kohlenfloh::{Shades, Table};
    ///
    /// let mut table = Table::with_room(16);
    /// table.add(&[0, 0, 0, 0, 0, 0, 0, 0, 0, 10, 0, 0])?;
    /// let mut shades = Shades::from_coordinates(&[40, 0, 0, 160, 0, 0])?;
    /// let mut members = vec![0; table.used()];
    /// let round = table.plain_round(&mut shades, &mut members)?;
    /// assert_eq!((round.total, round.moved, round.distances), (4800, 1, 4));
    /// assert_eq!(members, [0, 1]);
    /// assert_eq!(shades.coordinates(), [0, 0, 0, 160, 0, 0]);
    /// # Ok::<(), kohlenfloh::Refusal>(())
    /// ```
    ///
    /// # Refusals
    /// SHORT ROOM, for members fewer than the used entries.
    pub fn plain_round(&self, shades: &mut Shades, members: &mut [u32]) -> Result<Round, Refusal> {
        calls::plain_round(self.record(), self.keys(), self.weights(), shades.coordinates_mut(), members)
    }

    /// Makes the same round by the shortened search, which reads each colour's former shade from the members and works
    /// out fewer distances.
    ///
    /// ```
    /// use kohlenfloh::{Refusal, Shades, Table};
    ///
    /// let mut table = Table::with_room(16);
    /// table.add(&[0, 0, 0, 0, 0, 0, 0, 0, 0, 10, 0, 0])?;
    /// let mut shades = Shades::from_coordinates(&[0, 0, 0, 160, 0, 0])?;
    /// let mut members = vec![0, 1];
    /// let round = table.short_round(&mut shades, &mut members)?;
    /// assert_eq!((round.total, round.moved, round.distances), (0, 0, 2));
    ///
    /// members[1] = 2;
    /// assert_eq!(table.short_round(&mut shades, &mut members), Err(Refusal::BadMember));
    /// # Ok::<(), Refusal>(())
    /// ```
    ///
    /// # Refusals
    /// SHORT ROOM, for members fewer than the used entries; BAD MEMBER.
    pub fn short_round(&self, shades: &mut Shades, members: &mut [u32]) -> Result<Round, Refusal> {
        calls::short_round(self.record(), self.keys(), self.weights(), shades.coordinates_mut(), members)
    }
}
