//! The bench: each call is made by the library and by the model, and the two outcomes are held side by side.
use std::collections::BTreeMap;
use std::fmt::Debug;

use crate::model::Model;
use crate::outcome::{Difference, Outcome};

const LONGEST_ASK: usize = 1500;

/// The model, and what was compared so far.
#[derive(Default)]
pub struct Bench {
    pub model: Model,
    pub calls: u64,
    pub refusals: BTreeMap<u32, u64>,
    pub differed: Option<String>,
}

impl Bench {
    /// A call by the library, held against the model; what was asked is kept where they differ.
    pub fn compare<Ask: Debug>(
        &mut self,
        ask: &Ask,
        library: fn(&Ask) -> Result<Outcome, Difference>,
        model: fn(&mut Model, &Ask) -> Outcome,
    ) -> Result<Outcome, Difference> {
        let due = model(&mut self.model, ask);
        let seen = self.once(ask, library)?;
        match seen.against(&due) {
            Ok(()) => Ok(seen),
            Err(difference) => Err(self.with_ask(ask, difference)),
        }
    }

    /// A call by the library alone, for what is held against other calls.
    pub fn once<Ask: Debug>(
        &mut self,
        ask: &Ask,
        library: fn(&Ask) -> Result<Outcome, Difference>,
    ) -> Result<Outcome, Difference> {
        let seen = library(ask).map_err(|difference| self.with_ask(ask, difference))?;
        self.calls += 1;
        if seen.refusal != 0 {
            *self.refusals.entry(seen.refusal).or_insert(0) += 1;
        }
        Ok(seen)
    }

    /// Keeps what was asked, cut where it is long, beside a difference.
    fn with_ask<Ask: Debug>(&mut self, ask: &Ask, difference: Difference) -> Difference {
        let mut asked = format!("{ask:?}");
        if asked.len() > LONGEST_ASK {
            asked.truncate(LONGEST_ASK);
            asked.push_str(" ..");
        }
        self.differed = Some(asked);
        difference
    }
}
