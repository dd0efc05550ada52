//! Shades: places on the grid of sixteenths of a level.
use crate::calls;
use crate::palette::Palette;
use crate::refusal::Refusal;

/// Some shades, 1 to 64, three coordinates each, in sixteenths of a level from 0 to 4080.
///
/// Colour (r, g, b) stands at (16 r, 16 g, 16 b). A run answers its shades; a single round moves the shades it is lent.
///
/// ```
/// use kohlenfloh::Shades;
///
/// let shades = Shades::from_coordinates(&[40, 0, 0, 160, 0, 0])?;
/// assert_eq!(shades.count(), 2);
/// assert_eq!(shades.shade(1), Some([160, 0, 0]));
/// assert_eq!(shades.shade(2), None);
/// # Ok::<(), kohlenfloh::Refusal>(())
/// ```
#[derive(Clone, Debug, PartialEq, Eq, Hash)]
pub struct Shades {
    coordinates: Vec<u32>,
}

impl Shades {
    /// The most shades there can be, 64.
    pub const MOST: usize = 64;

    /// Shades from their coordinates, three for each, tested by the library.
    ///
    /// ```
    /// use kohlenfloh::{Refusal, Shades};
    ///
    /// assert_eq!(Shades::from_coordinates(&[0, 0, 4081]), Err(Refusal::BadCentre));
    /// assert_eq!(Shades::from_coordinates(&[0, 0]), Err(Refusal::BadCount));
    /// ```
    ///
    /// # Refusals
    /// BAD COUNT, BAD CENTRE.
    pub fn from_coordinates(coordinates: &[u32]) -> Result<Shades, Refusal> {
        let shades = Shades::held(coordinates.to_vec());
        shades.palette()?;
        Ok(shades)
    }

    /// How many shades there are.
    pub fn count(&self) -> usize {
        self.coordinates.len() / 3
    }

    /// The coordinates, three for each shade.
    pub fn coordinates(&self) -> &[u32] {
        &self.coordinates
    }

    /// The coordinates of the shade with this number.
    pub fn shade(&self, number: usize) -> Option<[u32; 3]> {
        self.coordinates.as_chunks().0.get(number).copied()
    }

    /// The palette of shades alone: each in whole levels, the whole part of (coordinate + 8) / 16.
    ///
    /// This is for shades that come without a table, as those that were stored. After a run
    /// [`Table::palette_of`](crate::Table::palette_of) is the one to use: the run has rounded its means to sixteenths,
    /// and to round these again can leave a level one too high.
    ///
    /// ```
    /// use kohlenfloh::Shades;
    ///
    /// let palette = Shades::from_coordinates(&[40, 39, 4080])?.palette()?;
    /// assert_eq!(palette.bytes(), [3, 2, 255]);
    /// # Ok::<(), kohlenfloh::Refusal>(())
    /// ```
    ///
    /// # Refusals
    /// None is met, as these shades are good; the library's answer is handed on as it comes.
    pub fn palette(&self) -> Result<Palette, Refusal> {
        let mut bytes = vec![0; self.coordinates.len()];
        calls::palette_from_shades(&self.coordinates, &mut bytes)?;
        Ok(Palette::held(bytes))
    }

    /// Shades whose coordinates are known to be good, or are about to be tested.
    pub(crate) fn held(coordinates: Vec<u32>) -> Shades {
        Shades { coordinates }
    }

    /// The coordinates, for a round that moves them.
    pub(crate) fn coordinates_mut(&mut self) -> &mut [u32] {
        &mut self.coordinates
    }
}
