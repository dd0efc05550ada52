//! The palette of a run, and two of its shades that come out equal: no pixel is mapped to a palette with such twins.
use std::fmt;

use kohlenfloh::{Palette, Refusal, Run, Table};

use crate::in_use::Failed;
use crate::order::hex;

/// Two equal shades of a palette.
pub struct Twins {
    /// The numbers of the two, the lower one first.
    numbers: (usize, usize),
    /// The levels R, G, B of both.
    levels: [u8; 3],
    /// How many shades the palette has.
    count: usize,
    /// How many of them are fixed.
    fixed: usize,
}

impl Twins {
    /// The twins of a palette of so many fixed shades, if it has any.
    fn of(palette: &Palette, fixed: usize) -> Option<Twins> {
        let numbers = palette.twins()?;
        Some(Twins { numbers, levels: palette.entry(numbers.0)?, count: palette.count(), fixed })
    }

    /// Whether both are fixed, so that no other count of shades parts them.
    pub fn are_fixed(&self) -> bool {
        self.numbers.1 < self.fixed
    }

    /// What the library refuses by.
    pub fn refusal(&self) -> Refusal {
        let (lower, higher) = self.numbers;
        Refusal::TwinShade { lower, higher }
    }
}

/// Which shades they are, in what colour, and what can be done about them.
impl fmt::Display for Twins {
    fn fmt(&self, to: &mut fmt::Formatter<'_>) -> fmt::Result {
        let Twins { numbers: (lower, higher), levels, count, fixed } = self;
        let ([red, green, blue], hex) = (levels, hex(*levels));
        let (equal, remedy) = if self.are_fixed() {
            (format!("{lower} and {higher} are fixed and equal"), "fix it once")
        } else if lower < fixed {
            (format!("{higher} comes out equal to {lower}, which is fixed"), "ask for fewer shades")
        } else {
            (format!("{lower} and {higher} come out equal"), "ask for fewer shades")
        };
        write!(to, "of {count} shades, {equal}, both {red} {green} {blue} {hex}, and would be one yarn; {remedy}")
    }
}

/// The palette of a run, to which pixels can be mapped.
pub fn palette_of(table: &Table, run: &Run) -> Result<Palette, Failed> {
    let palette = table.palette_of(run)?;
    match Twins::of(&palette, run.fixed) {
        Some(twins) => Err(Failed::Twins(twins)),
        None => Ok(palette),
    }
}

#[cfg(test)]
mod tests {
    use super::Twins;

    #[test]
    fn twins_are_told_by_whether_they_are_fixed() {
        let told = |fixed: usize| Twins { numbers: (1, 3), levels: [1, 2, 30], count: 6, fixed }.to_string();
        let both = "both 1 2 30 #01021e, and would be one yarn";
        for fixed in [0, 1] {
            assert_eq!(told(fixed), format!("of 6 shades, 1 and 3 come out equal, {both}; ask for fewer shades"));
        }
        for fixed in [2, 3] {
            let equal = "3 comes out equal to 1, which is fixed";
            assert_eq!(told(fixed), format!("of 6 shades, {equal}, {both}; ask for fewer shades"));
        }
        for fixed in [4, 5] {
            assert_eq!(told(fixed), format!("of 6 shades, 1 and 3 are fixed and equal, {both}; fix it once"));
        }
    }
}
