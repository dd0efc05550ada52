//! P6 pictures, read from memory.
use crate::calls;
use crate::refusal::Refusal;

/// A P6 picture in the input it was read from: its sides, and its raster as a stretch of that input.
///
/// ```
/// use kohlenfloh::{Picture, Refusal};
///
/// let input = b"P6 2 1 255 abcdef";
/// let picture = Picture::read(input)?;
/// assert_eq!((picture.width(), picture.height(), picture.pixels()), (2, 1, 2));
/// assert_eq!(picture.raster(), b"abcdef");
///
/// assert_eq!(Picture::read(b"P6 2,1 255 abcdef"), Err(Refusal::BadHeader { offset: 4 }));
/// assert_eq!(Picture::read(b"P6 2 1 255 abcde"), Err(Refusal::BadRaster));
///
/// // A comment, as drawing programs write one, counts as a white byte.
/// assert_eq!(Picture::read(b"P6\n# by hand\n2 1\n255\nabcdef")?, picture);
/// assert_eq!(Picture::read(b"P6 2 1 # no end"), Err(Refusal::BadHeader { offset: 15 }));
/// # Ok::<(), Refusal>(())
/// ```
#[derive(Clone, Copy, Debug, PartialEq, Eq)]
pub struct Picture<'a> {
    pub(crate) width: usize,
    pub(crate) height: usize,
    pub(crate) raster: &'a [u8],
}

impl<'a> Picture<'a> {
    /// The most pixels in a row, and the most rows: 16,384.
    pub const MOST_SIDE: usize = 16_384;

    /// The most pixels a picture can have, 16,777,216.
    pub const MOST_PIXELS: usize = 16_777_216;

    /// Reads a P6 picture: the header, then three bytes for each pixel and nothing after them.
    ///
    /// Sides are 1 to 16,384, pixels at most 16,777,216, and the depth is 255. After "P6" and before the depth,
    /// wherever a white byte may stand, `#` opens a comment: it has any bytes up to and including the first CR or LF,
    /// and counts as one white byte. Offsets count its bytes too. A comment that never ends is BAD HEADER at the
    /// input's length.
    ///
    /// # Refusals
    /// BAD HEADER, BAD SIZE, BAD DEPTH, BAD RASTER.
    pub fn read(input: &'a [u8]) -> Result<Picture<'a>, Refusal> {
        calls::read_picture(input)
    }

    /// Pixels in a row.
    pub fn width(&self) -> usize {
        self.width
    }

    /// Rows.
    pub fn height(&self) -> usize {
        self.height
    }

    /// Width times height.
    pub fn pixels(&self) -> usize {
        self.width * self.height
    }

    /// The bytes R, G, B of each pixel, row by row: the stretch of the input that follows the header, uncopied.
    pub fn raster(&self) -> &'a [u8] {
        self.raster
    }
}
