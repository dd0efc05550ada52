//! The smallest count of shades whose picture uses as many of them as are wanted.
use std::fmt;

use kohlenfloh::{Palette, Refusal, Run, Table};

use crate::twins::{palette_of, Twins};

/// A count that was tried.
#[derive(Clone, Copy)]
struct Tried {
    /// How many shades were looked for.
    count: usize,
    /// How many of them a pixel has; none where two come out equal, and nothing is mapped.
    in_use: Option<usize>,
}

/// No count gives a picture that uses as many shades as are wanted.
pub struct Unmet {
    /// How many are wanted.
    wanted: usize,
    /// Every count there can be from that number on, in order. There is at least one.
    tried: Vec<Tried>,
}

/// Why no run is found.
pub enum Failed {
    /// The library refuses.
    Refused(Refusal),
    /// It refuses the palette of a run, as two shades come out equal.
    Twins(Twins),
    /// It refuses nothing, and no count is right.
    Unmet(Unmet),
}

impl From<Refusal> for Failed {
    fn from(refusal: Refusal) -> Failed {
        Failed::Refused(refusal)
    }
}

/// Has a run made for each count from the wanted number on, to the first whose picture uses exactly that many shades.
/// The first count is refused as any count is; where a later one is, there are no more to be tried. A count whose run
/// leaves twins is passed over.
///
/// Fixed shades stay, whatever the count: a greater one has more free shades. As some of the fixed ones may have no
/// pixel, fewer shades than are fixed can be wanted in use; the first count is then the least that has a free shade. A
/// fixed shade without a pixel is not in use, and stands on the sheet all the same: it is what was asked for, and the
/// weaver sees that its yarn is not needed. Two fixed shades that are equal are so at every count, and end the search.
pub fn find(
    table: &Table,
    wanted: usize,
    fixed: usize,
    run: impl Fn(usize) -> Result<Run, Refusal>,
) -> Result<Run, Failed> {
    let colours = colours_of(table);
    let mut unmet = Unmet { wanted, tried: Vec::new() };
    let mut count = if (1..=fixed).contains(&wanted) { fixed + 1 } else { wanted };
    loop {
        let run = match run(count) {
            Ok(run) => run,
            Err(refusal) if unmet.tried.is_empty() => return Err(refusal.into()),
            Err(_) => return Err(Failed::Unmet(unmet)),
        };
        let in_use = match palette_of(table, &run) {
            Ok(palette) => Some(in_use(&palette, &colours)?),
            Err(Failed::Twins(twins)) if !twins.are_fixed() => None,
            Err(failed) => return Err(failed),
        };
        if in_use == Some(wanted) {
            return Ok(run);
        }
        unmet.tried.push(Tried { count, in_use });
        count += 1;
    }
}

/// Each colour of a table as one pixel.
fn colours_of(table: &Table) -> Vec<u8> {
    table.keys().iter().flat_map(|key| key.to_be_bytes().into_iter().skip(1)).collect()
}

/// How many entries are the nearest to some colour, and so have a pixel of any picture of these colours.
fn in_use(palette: &Palette, colours: &[u8]) -> Result<usize, Refusal> {
    Ok(palette.map(colours)?.pixels().iter().filter(|pixels| **pixels > 0).count())
}

impl Unmet {
    /// The counts that come nearest, each with what it uses: the first of those that use the most below what is wanted,
    /// and the first of those that use the fewest above it.
    fn nearest(&self) -> impl Iterator<Item = (usize, usize)> + '_ {
        let mapped = self.tried.iter().filter_map(|tried| Some((tried.count, tried.in_use?)));
        let (below, above): (Vec<_>, Vec<_>) = mapped.partition(|(_, in_use)| *in_use < self.wanted);
        let most = below.into_iter().rev().max_by_key(|(_, in_use)| *in_use);
        most.into_iter().chain(above.into_iter().min_by_key(|(_, in_use)| *in_use))
    }

    /// The first count whose run leaves twins, if there is one.
    fn with_twins(&self) -> Option<usize> {
        self.tried.iter().find(|tried| tried.in_use.is_none()).map(|tried| tried.count)
    }
}

/// What was tried, what came nearest, and where two shades came out equal.
impl fmt::Display for Unmet {
    fn fmt(&self, to: &mut fmt::Formatter<'_>) -> fmt::Result {
        let Unmet { wanted, tried } = self;
        let [first, last] = [tried.first(), tried.last()].map(|tried| tried.map_or(*wanted, |tried| tried.count));
        write!(to, "no count of shades from {first} to {last} gives a picture that uses exactly {wanted} of them")?;
        for (count, in_use) in self.nearest() {
            write!(to, "; of {count} it uses {in_use}")?;
        }
        self.with_twins().map_or(Ok(()), |count| write!(to, "; of {count} two come out equal"))
    }
}

#[cfg(test)]
mod tests {
    use super::{Tried, Unmet};

    #[test]
    fn the_nearest_counts_are_told() {
        let unmet_from = |first: usize, wanted, uses: &[usize]| {
            // 0 stands for twins.
            let in_use = |in_use: &usize| Some(*in_use).filter(|in_use| *in_use > 0);
            let tried = uses.iter().zip(first..).map(|(uses, count)| Tried { count, in_use: in_use(uses) });
            Unmet { wanted, tried: tried.collect() }.to_string()
        };
        let unmet = |wanted, uses: &[usize]| unmet_from(wanted, wanted, uses);
        let words = "gives a picture that uses exactly 6 of them";
        assert_eq!(unmet(6, &[5]), format!("no count of shades from 6 to 6 {words}; of 6 it uses 5"));
        let several = unmet(6, &[4, 5, 5, 8, 7, 7]);
        assert_eq!(several, format!("no count of shades from 6 to 11 {words}; of 7 it uses 5; of 10 it uses 7"));
        let twins = unmet(6, &[0, 5, 0]);
        assert_eq!(twins, format!("no count of shades from 6 to 8 {words}; of 7 it uses 5; of 6 two come out equal"));
        assert_eq!(unmet(6, &[0]), format!("no count of shades from 6 to 6 {words}; of 6 two come out equal"));
        // With eight fixed shades the first count is 9.
        assert_eq!(unmet_from(9, 6, &[7, 8]), format!("no count of shades from 9 to 10 {words}; of 9 it uses 7"));
    }
}
