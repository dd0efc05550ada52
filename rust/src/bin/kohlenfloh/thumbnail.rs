//! The picture in its shades, small enough to stand on the order sheet.
use crate::base64;
use crate::png;
use crate::work::Work;

/// The most pixels in a row of the small picture, and the most rows.
const MOST_SIDE: usize = 320;

/// How many times a tiny picture is enlarged at most.
const MOST_TIMES: usize = 4;

/// A small picture.
pub struct Thumbnail {
    /// Pixels in a row.
    pub width: usize,
    /// Rows.
    pub height: usize,
    /// The picture as an address that holds the whole of it.
    pub address: String,
}

/// Makes the picture small: its sides keep their ratio as far as whole pixels can, and each pixel is the one of the
/// picture that stands at its middle. A tiny picture is enlarged by a whole number, so that its pixels are squares in
/// programs that draw pictures smooth.
pub fn of(work: &Work<'_>) -> Thumbnail {
    let (wide, high) = (work.picture.width(), work.picture.height());
    let longest = wide.max(high);
    let most = if longest > MOST_SIDE { MOST_SIDE } else { longest * MOST_TIMES.min(MOST_SIDE / longest) };
    let (width, height) = ((wide * most / longest).max(1), (high * most / longest).max(1));
    let middle = |place: usize, few: usize, many: usize| (2 * place + 1) * many / (2 * few);
    let rows = (0..height).map(|row| &work.index[wide * middle(row, height, high)..][..wide]);
    let index: Vec<u8> = rows.flat_map(|row| (0..width).map(move |column| row[middle(column, width, wide)])).collect();
    let picture = png::indexed(width as u32, height as u32, work.palette.bytes(), &index);
    Thumbnail { width, height, address: format!("data:image/png;base64,{}", base64::encode(&picture)) }
}
