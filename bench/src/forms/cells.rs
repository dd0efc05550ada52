//! Mapping by cells: the colours are cut into 32 by 32 by 32 cells, and a pixel looks only at the entries that can be
//! nearest somewhere in its cell. A cell's entries, the bits of one number, are found at its first pixel; a
//! pixel equal to the one before it takes its answer.
use super::blocks::entries_of;
use super::key_of;

/// The side of a cell in levels.
const SIDE: i32 = 8;

/// Maps a strip into the front of the index picture: the errors of R, G and B.
pub fn map(strip: &[u8], palette: &[u8], index: &mut [u8]) -> [u64; 3] {
    assert!(strip.len().is_multiple_of(3) && strip.len() / 3 <= (1 << 24).min(index.len()), "refused");
    let entries = entries_of(palette).map(|entry| entry.map(|level| level as i32));
    let count = palette.len() / 3;
    let mut cells = [0u64; 32768];
    let mut errors = [0; 3];
    let (mut former, mut number) = (u32::MAX, 0);
    for (pixel, place) in strip.chunks_exact(3).zip(index) {
        let levels = [pixel[0] as i32, pixel[1] as i32, pixel[2] as i32];
        if key_of(pixel) != former {
            former = key_of(pixel);
            let at = (pixel[0] as usize >> 3) << 10 | (pixel[1] as usize >> 3) << 5 | pixel[2] as usize >> 3;
            if cells[at] == 0 {
                cells[at] = possible(&entries[..count], levels.map(|level| level / SIDE * SIDE));
            }
            number = nearest(&entries, cells[at], levels);
        }
        *place = number as u8;
        for c in 0..3 {
            let miss = levels[c] - entries[number][c];
            errors[c] += (miss * miss) as u64;
        }
    }
    errors
}

/// The nearest of some entries, which are bits of `some`; the lowest number at a tie.
#[inline(always)]
fn nearest(entries: &[[i32; 3]; 64], some: u64, levels: [i32; 3]) -> usize {
    if some & (some - 1) == 0 {
        return some.trailing_zeros() as usize & 63;
    }
    let (mut best, mut left) = (i32::MAX, some);
    while left != 0 {
        let number = left.trailing_zeros() as usize & 63;
        let [r, g, b] = [0, 1, 2].map(|c| levels[c] - entries[number][c]);
        best = best.min(64 * (r * r + g * g + b * b) + number as i32);
        left &= left - 1;
    }
    best as usize & 63
}

/// The entries that can be nearest in the cell from `low` on: those whose least distance to it is not above the
/// smallest of the greatest ones.
#[inline(never)]
fn possible(entries: &[[i32; 3]], low: [i32; 3]) -> u64 {
    let mut least = [0; 64];
    let mut bound = i32::MAX;
    for (least, entry) in least.iter_mut().zip(entries) {
        let mut greatest = 0;
        for c in 0..3 {
            let (below, above) = (low[c] - entry[c], entry[c] - (low[c] + SIDE - 1));
            let out = below.max(above).max(0);
            let across = below.abs().max(above.abs());
            *least += out * out;
            greatest += across * across;
        }
        bound = bound.min(greatest);
    }
    (0..entries.len()).filter(|number| least[*number] <= bound).fold(0, |some, number| some | 1 << number)
}
