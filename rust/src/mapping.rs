//! Mapping: each pixel's nearest palette entry, and what the picture loses by it.
use crate::calls;
use crate::palette::Palette;
use crate::refusal::Refusal;

/// Error and means of a strip, as it was mapped by one call. Distances are in whole levels, squared.
///
/// Errors of several strips add up; means do not. The mean of a picture mapped in strips is its summed error divided
/// by its pixels.
///
/// ```
/// use kohlenfloh::Palette;
///
/// let palette = Palette::from_bytes(&[3, 0, 0])?;
/// let mut index = [0; 4];
/// let first = palette.map_into(&[0; 9], &mut index, 0)?;
/// let second = palette.map_into(&[10, 0, 0], &mut index, 3)?;
/// assert_eq!((first.error, second.error), (27, 49));
/// assert_eq!((first.mean, second.mean), (Some(9.0), Some(49.0)));
/// assert_eq!((first.error + second.error) as f64 / index.len() as f64, 19.0);
/// # Ok::<(), kohlenfloh::Refusal>(())
/// ```
#[derive(Clone, Copy, Debug, PartialEq)]
#[non_exhaustive]
pub struct Figures {
    /// The sum of squared level differences over all pixels and channels.
    pub error: u64,
    /// That sum for R, G and B.
    pub channel_errors: [u64; 3],
    /// The mean square error, the error divided by the pixels; `None` for no pixels.
    pub mean: Option<f64>,
    /// The means of R, G and B; zeros for no pixels.
    pub channel_means: [f64; 3],
}

/// A strip's stretch of the index picture, and its figures.
#[derive(Clone, Debug, PartialEq)]
#[non_exhaustive]
pub struct Mapped {
    /// The number of the nearest palette entry, one byte for each pixel.
    pub index: Vec<u8>,
    /// Error and means.
    pub figures: Figures,
    /// How many entries the palette has.
    count: usize,
}

impl Mapped {
    /// The pixels of each palette entry, in the order of the numbers; 0 for an entry that no pixel has.
    ///
    /// ```
    /// use kohlenfloh::Palette;
    ///
    /// let palette = Palette::from_bytes(&[0, 0, 0, 10, 0, 0, 200, 0, 0])?;
    /// let mapped = palette.map(&[0, 0, 0, 9, 0, 0, 1, 0, 0])?;
    /// assert_eq!(mapped.pixels(), [2, 1, 0]);
    /// # Ok::<(), kohlenfloh::Refusal>(())
    /// ```
    pub fn pixels(&self) -> Vec<u64> {
        let mut pixels = vec![0; self.count];
        for number in &self.index {
            // The index may have been changed since: a number past the palette's entries is no entry's.
            if let Some(pixels) = pixels.get_mut(usize::from(*number)) {
                *pixels += 1;
            }
        }
        pixels
    }
}

impl Palette {
    /// Gives each pixel of a strip the number of its nearest entry, the lowest number at a tie. No two entries may be
    /// equal, whether or not there are pixels.
    ///
    /// ```
    /// use kohlenfloh::{Palette, Refusal};
    ///
    /// let palette = Palette::from_bytes(&[3, 0, 0])?;
    /// let mapped = palette.map(&[0, 0, 0, 0, 0, 0, 0, 0, 0, 10, 0, 0])?;
    /// assert_eq!(mapped.index, [0, 0, 0, 0]);
    /// assert_eq!(mapped.figures.error, 76);
    /// assert_eq!(mapped.figures.channel_errors, [76, 0, 0]);
    /// assert_eq!(mapped.figures.mean, Some(19.0));
    /// assert_eq!(palette.map(&[])?.figures.mean, None);
    ///
    /// let twins = Palette::from_bytes(&[3, 0, 0, 7, 7, 7, 3, 0, 0])?;
    /// assert_eq!(twins.map(&[0, 0, 0]), Err(Refusal::TwinShade { lower: 0, higher: 2 }));
    /// assert_eq!(twins.map(&[]), Err(Refusal::TwinShade { lower: 0, higher: 2 }));
    /// # Ok::<(), Refusal>(())
    /// ```
    ///
    /// # Refusals
    /// BAD STRIP, TWIN SHADE, MANY PIXELS.
    pub fn map(&self, strip: &[u8]) -> Result<Mapped, Refusal> {
        let mut index = vec![0; strip.len() / 3];
        let figures = self.map_into(strip, &mut index, 0)?;
        Ok(Mapped { index, figures, count: self.count() })
    }

    /// Maps a strip into its stretch of an index picture, which begins at place `first` and has a byte for each pixel.
    /// Every other index byte stays. No two entries may be equal.
    ///
    /// ```
    /// use kohlenfloh::{Palette, Refusal};
    ///
    /// let palette = Palette::from_bytes(&[0, 0, 0, 10, 0, 0])?;
    /// let mut index = [9; 4];
    /// palette.map_into(&[10, 0, 0, 2, 0, 0], &mut index, 1)?;
    /// assert_eq!(index, [9, 1, 0, 9]);
    /// assert_eq!(palette.map_into(&[10, 0, 0], &mut index, 4), Err(Refusal::ShortRoom));
    /// # Ok::<(), Refusal>(())
    /// ```
    ///
    /// # Refusals
    /// BAD STRIP, TWIN SHADE, MANY PIXELS; SHORT ROOM, for a stretch that does not lie in the index picture.
    pub fn map_into(&self, strip: &[u8], index: &mut [u8], first: usize) -> Result<Figures, Refusal> {
        calls::map_strip(strip, self.bytes(), index, first)
    }
}
