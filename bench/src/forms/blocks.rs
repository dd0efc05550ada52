//! Mapping in blocks: the pixels of a block look at one palette entry after the other.
use super::twins;

/// The pixels of a block.
const BLOCK: usize = 256;

/// The palette's entries, zeros past the last; its bytes must be 3 to 192 and a multiple of 3, no two entries equal.
pub fn entries_of(palette: &[u8]) -> [[i16; 3]; 64] {
    assert!(palette.len().is_multiple_of(3) && (3..=192).contains(&palette.len()), "bad palette");
    assert!(twins::pairwise(palette).is_none(), "twin shade");
    let mut entries = [[0; 3]; 64];
    for (entry, three) in entries.iter_mut().zip(palette.chunks_exact(3)) {
        *entry = [three[0] as i16, three[1] as i16, three[2] as i16];
    }
    entries
}

/// Maps a strip into the front of the index picture: the errors of R, G and B.
pub fn map(strip: &[u8], palette: &[u8], index: &mut [u8]) -> [u64; 3] {
    assert!(strip.len().is_multiple_of(3) && strip.len() / 3 <= (1 << 24).min(index.len()), "refused");
    let entries = entries_of(palette);
    let mut errors = [0; 3];
    for (pixels, index) in strip.chunks(3 * BLOCK).zip(index.chunks_mut(BLOCK)) {
        let block = map_block(pixels, &entries[..palette.len() / 3], index);
        for c in 0..3 {
            errors[c] += block[c] as u64;
        }
    }
    errors
}

/// Maps a block: its errors.
fn map_block(pixels: &[u8], entries: &[[i16; 3]], index: &mut [u8]) -> [u32; 3] {
    let mut levels = [[0i16; BLOCK]; 3];
    for (i, pixel) in pixels.chunks_exact(3).enumerate() {
        for c in 0..3 {
            levels[c][i] = pixel[c] as i16;
        }
    }
    let [reds, greens, blues] = &levels;
    let mut best = [i32::MAX; BLOCK];
    for (number, [red, green, blue]) in entries.iter().enumerate() {
        for i in 0..BLOCK {
            let (r, g, b) = ((reds[i] - red) as i32, (greens[i] - green) as i32, (blues[i] - blue) as i32);
            best[i] = best[i].min(64 * (r * r + g * g + b * b) + number as i32);
        }
    }
    let mut errors = [0; 3];
    for (i, place) in index.iter_mut().enumerate() {
        let number = best[i] as usize & 63;
        *place = number as u8;
        for c in 0..3 {
            let miss = (levels[c][i] - entries[number][c]) as i32;
            errors[c] += (miss * miss) as u32;
        }
    }
    errors
}
