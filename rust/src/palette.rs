//! The palette: the shades in whole levels, to which pixels are mapped.
use crate::calls;
use crate::refusal::Refusal;
use crate::rounds::Run;
use crate::shades::Shades;
use crate::table::Table;

/// A palette of 1 to 64 entries, three bytes R, G, B each.
///
/// [`Table::palette_of`] makes it from what a run leaves, [`Shades::palette`] from shades alone, and
/// [`Palette::from_bytes`] from bytes that were stored. Each of them may give twins, two entries that are equal. No
/// pixel is mapped to such a palette: [`Palette::map`] refuses it by TWIN SHADE, and [`Palette::twins`] tells of it.
///
/// ```
/// use kohlenfloh::Palette;
///
/// let palette = Palette::from_bytes(&[0, 0, 0, 10, 0, 0])?;
/// assert_eq!(palette.count(), 2);
/// assert_eq!(palette.entry(1), Some([10, 0, 0]));
/// assert_eq!(palette.entry(2), None);
/// assert_eq!(palette.map(&[9, 1, 0])?.index, [1]);
/// # Ok::<(), kohlenfloh::Refusal>(())
/// ```
#[derive(Clone, Debug, PartialEq, Eq, Hash)]
pub struct Palette {
    bytes: Vec<u8>,
}

impl Palette {
    /// The most pixels that one call maps, 16,777,216.
    pub const MOST_PIXELS: usize = 16_777_216;

    /// A palette from its bytes, three for each entry, tested by the library. Two entries may be equal.
    ///
    /// ```
    /// use kohlenfloh::{Palette, Refusal};
    ///
    /// assert!(Palette::from_bytes(&[0; 192]).is_ok());
    /// assert_eq!(Palette::from_bytes(&[0; 195]), Err(Refusal::BadPalette));
    /// assert_eq!(Palette::from_bytes(&[]), Err(Refusal::BadPalette));
    /// ```
    ///
    /// # Refusals
    /// BAD PALETTE.
    pub fn from_bytes(bytes: &[u8]) -> Result<Palette, Refusal> {
        let palette = Palette::held(bytes.to_vec());
        match palette.map(&[]) {
            Ok(_) | Err(Refusal::TwinShade { .. }) => Ok(palette),
            Err(refusal) => Err(refusal),
        }
    }

    /// The numbers of two equal entries, the lower one first, if there are any: the pair that TWIN SHADE carries where
    /// the palette is mapped. Of several pairs it is the one with the smallest higher number.
    ///
    /// Two shades of a run may come to the same three levels, and are twins in its palette. It is then to be asked for
    /// fewer shades.
    ///
    /// ```
    /// use kohlenfloh::{RunOptions, Table};
    ///
    /// let mut table = Table::with_room(5);
    /// table.add(&[0, 1, 0, 1, 1, 2, 1, 2, 1, 1, 2, 2, 2, 0, 1])?;
    /// let palette = |count| {
    ///     let run = table.run(RunOptions::shades(count))?;
    ///     table.palette_of(&run)
    /// };
    /// let four = palette(4)?;
    /// assert_eq!(four.twins(), Some((0, 3)));
    /// assert_eq!((four.entry(0), four.entry(3)), (Some([1, 2, 2]), Some([1, 2, 2])));
    /// assert_eq!(palette(3)?.twins(), None);
    /// # Ok::<(), kohlenfloh::Refusal>(())
    /// ```
    pub fn twins(&self) -> Option<(usize, usize)> {
        match self.map(&[]) {
            Err(Refusal::TwinShade { lower, higher }) => Some((lower, higher)),
            _ => None,
        }
    }

    /// How many entries there are.
    pub fn count(&self) -> usize {
        self.bytes.len() / 3
    }

    /// The bytes, three for each entry.
    pub fn bytes(&self) -> &[u8] {
        &self.bytes
    }

    /// The levels R, G, B of the entry with this number.
    pub fn entry(&self, number: usize) -> Option<[u8; 3]> {
        self.entries().nth(number)
    }

    /// The levels R, G, B of each entry, in the order of the numbers.
    ///
    /// ```
    /// use kohlenfloh::Palette;
    ///
    /// let palette = Palette::from_bytes(&[0, 0, 0, 10, 0, 0])?;
    /// assert!(palette.entries().eq([[0, 0, 0], [10, 0, 0]]));
    /// # Ok::<(), kohlenfloh::Refusal>(())
    /// ```
    pub fn entries(&self) -> impl ExactSizeIterator<Item = [u8; 3]> + '_ {
        self.bytes.as_chunks().0.iter().copied()
    }

    /// A palette whose bytes are known to be good, or are about to be tested.
    pub(crate) fn held(bytes: Vec<u8>) -> Palette {
        Palette { bytes }
    }
}

impl Table {
    /// The palette of a run of this table: each shade in whole levels. A fixed shade has its own levels; every other
    /// one has in each channel the level nearest to the exact mean of its group, halves up, or is rounded from its
    /// coordinates where it has no group.
    ///
    /// ```
    /// use kohlenfloh::{RunOptions, Table};
    ///
    /// // 17 pixels (10,0,0) and 15 pixels (11,0,0): the mean is 10 and 15/32, nearer to 10 than to 11. The nearest
    /// // sixteenth is 168, as near to 11 as to 10.
    /// let mut table = Table::with_room(2);
    /// table.add(&[[10, 0, 0].repeat(17), [11, 0, 0].repeat(15)].concat())?;
    /// let run = table.run(RunOptions::shades(1))?;
    /// assert_eq!(run.shades.coordinates(), [168, 0, 0]);
    /// assert_eq!(table.palette_of(&run)?.bytes(), [10, 0, 0]);
    /// assert_eq!(run.shades.palette()?.bytes(), [11, 0, 0]);
    ///
    /// let run = table.run_fixed(&[[11, 0, 0]], RunOptions::shades(2))?;
    /// assert_eq!(table.palette_of(&run)?.bytes(), [11, 0, 0, 10, 0, 0]);
    /// # Ok::<(), kohlenfloh::Refusal>(())
    /// ```
    ///
    /// # Refusals
    /// None is met with a run of this table as it was left; with another's those of
    /// [`Table::palette_from_groups_fixed`].
    pub fn palette_of(&self, run: &Run) -> Result<Palette, Refusal> {
        self.palette_from_groups_fixed(&run.shades, &run.members, run.fixed)
    }

    /// The palette of a run of this table: each shade in whole levels, in each channel the level nearest to the exact
    /// mean of the shade's group, halves up. The group of a shade is the entries whose member is its number. A shade
    /// with no group is rounded from its coordinates, as by [`Shades::palette`].
    ///
    /// Shades and members are those that the run left. They are taken as they are: nothing tests that they belong
    /// together. Members past the used entries are not looked at.
    ///
    /// ```
    /// use kohlenfloh::{RunOptions, Table};
    ///
    /// // 17 pixels (10,0,0) and 15 pixels (11,0,0): the mean is 10 and 15/32, nearer to 10 than to 11. The nearest
    /// // sixteenth is 168, as near to 11 as to 10.
    /// let mut table = Table::with_room(2);
    /// table.add(&[[10, 0, 0].repeat(17), [11, 0, 0].repeat(15)].concat())?;
    /// let run = table.run(RunOptions::shades(1))?;
    /// assert_eq!(run.shades.coordinates(), [168, 0, 0]);
    /// assert_eq!(table.palette_from_groups(&run.shades, &run.members)?.bytes(), [10, 0, 0]);
    /// assert_eq!(run.shades.palette()?.bytes(), [11, 0, 0]);
    /// # Ok::<(), kohlenfloh::Refusal>(())
    /// ```
    ///
    /// # Refusals
    /// SHORT ROOM, for members fewer than the used entries; BAD MEMBER.
    pub fn palette_from_groups(&self, shades: &Shades, members: &[u32]) -> Result<Palette, Refusal> {
        let coordinates = shades.coordinates();
        let mut bytes = vec![0; coordinates.len()];
        calls::palette_from_groups(self.record(), self.keys(), self.weights(), coordinates, members, &mut bytes)?;
        Ok(Palette::held(bytes))
    }

    /// The palette of a run of this table with fixed shades: as by [`Table::palette_from_groups`], but that the first
    /// `fixed` shades are rounded from their coordinates, as by [`Shades::palette`], group or none: after
    /// [`Table::run_fixed`] they have their own levels. After a run, [`Table::palette_of`] hands on what belongs
    /// together.
    ///
    /// ```
    /// use kohlenfloh::{Refusal, Shades, Table};
    ///
    /// let mut table = Table::with_room(2);
    /// table.add(&[10, 0, 0, 20, 0, 0])?;
    /// let shades = Shades::from_coordinates(&[160, 0, 0, 4080, 0, 0])?;
    /// assert_eq!(table.palette_from_groups_fixed(&shades, &[0, 0], 0)?.bytes(), [15, 0, 0, 255, 0, 0]);
    /// assert_eq!(table.palette_from_groups_fixed(&shades, &[0, 0], 1)?.bytes(), [10, 0, 0, 255, 0, 0]);
    /// assert_eq!(table.palette_from_groups_fixed(&shades, &[0, 0], 2), Err(Refusal::BadCount));
    /// # Ok::<(), Refusal>(())
    /// ```
    ///
    /// # Refusals
    /// BAD COUNT, for as many fixed shades as there are shades, or more; SHORT ROOM, for members fewer than the used
    /// entries; BAD MEMBER.
    pub fn palette_from_groups_fixed(
        &self,
        shades: &Shades,
        members: &[u32],
        fixed: usize,
    ) -> Result<Palette, Refusal> {
        let coordinates = shades.coordinates();
        let mut bytes = vec![0; coordinates.len()];
        let (record, keys, weights) = (self.record(), self.keys(), self.weights());
        calls::palette_from_groups_fixed(record, keys, weights, coordinates, members, fixed, &mut bytes)?;
        Ok(Palette::held(bytes))
    }
}
