//! Twins: two equal entries of a palette (document 02).
use super::slip::Slip;
use super::{Model, MOST_SHADES, TWIN_SHADE};
use crate::ask::Map;

/// The numbers of two equal entries, the lower and the higher.
pub type Twins = (usize, usize);

/// Every two entries that agree in so many levels, by rising higher number, and of one higher number by rising lower.
fn pairs(palette: &[u8], levels: usize) -> Vec<Twins> {
    let entries: Vec<&[u8]> = palette.chunks_exact(3).map(|entry| &entry[..levels]).collect();
    let mut pairs = Vec::new();
    for higher in 0..entries.len() {
        for lower in 0..higher {
            if entries[lower] == entries[higher] {
                pairs.push((lower, higher));
            }
        }
    }
    pairs
}

/// The levels by which two entries differ, added up.
fn apart(one: &[u8], other: &[u8]) -> u32 {
    one.iter().zip(other).map(|(&one, &other)| u32::from(one.abs_diff(other))).sum()
}

impl Model {
    /// "A palette with two equal entries", by "the lower and the higher number, smallest higher number first" (document
    /// 02), and by the slip if there is one.
    pub fn twins(&self, ask: &Map) -> Option<Twins> {
        let pairs = pairs(&ask.palette, if self.slips(Slip::ComparesRedAndGreenAlone) { 2 } else { 3 });
        let entries = ask.palette.len() / 3;
        match self.slip {
            Some(Slip::MapsByTwins) => None,
            Some(Slip::TestsNoTwinsWithAnEmptyStrip) if ask.strip.is_empty() => None,
            Some(Slip::NamesTheHighestTwin) => pairs.last().copied(),
            Some(Slip::NamesTheTwinWithTheSmallestLower) => pairs.into_iter().min(),
            Some(Slip::OverlooksTheLastEntry) => pairs.into_iter().find(|twins| twins.1 + 1 < entries),
            Some(Slip::ComparesNeighboursAlone) => pairs.into_iter().find(|twins| twins.0 + 1 == twins.1),
            Some(Slip::SwapsLowerAndHigher) => pairs.first().map(|&(lower, higher)| (higher, lower)),
            _ => pairs.first().copied(),
        }
    }

    /// Notes what is at its edge in the entries of a palette, where mapping answers this number.
    pub fn meet_edges_of_twins(&mut self, ask: &Map, refusal: u32) {
        let pairs = pairs(&ask.palette, 3);
        let entries: Vec<&[u8]> = ask.palette.chunks_exact(3).collect();
        let count = entries.len();
        if refusal == 0 {
            self.meet_if(count == MOST_SHADES, "64 entries, no two of them equal");
            let near = (0..count).any(|higher| (0..higher).any(|lower| apart(entries[lower], entries[higher]) == 1));
            self.meet_if(near, "two entries that differ in one level by one");
        }
        let Some(&(lower, higher)) = pairs.first().filter(|_| refusal == TWIN_SHADE) else { return };
        self.meet_if(ask.strip.is_empty(), "twins and no pixels");
        self.meet_if(lower + 1 == higher, "twins beside each other");
        self.meet_if(lower + 1 < higher, "twins with others between them");
        self.meet_if((lower, higher) == (0, MOST_SHADES - 1), "twins at 0 and 63");
        self.meet_if(count > 2 && higher + 1 == count, "twins at the last entry alone");
        self.meet_if(pairs.iter().any(|pair| entries[pair.0] != entries[lower]), "twins of two colours");
        self.meet_if(pairs.iter().any(|pair| pair.0 < lower), "twins of a smaller lower number behind others");
        self.meet_if(pairs.windows(2).any(|two| two[0].1 == two[1].1), "three equal entries");
        self.meet_if(count > 2 && pairs.len() == count * (count - 1) / 2, "all entries equal");
    }
}
