//! Forms of the table job that the library cannot have: they want more memory than a call's stack holds. Each answers
//! the record.
use crate::forms::key_of;
use crate::forms::table::sums_of;
use kohlenfloh::Record;

/// The record of so many entries.
fn record_of(used: usize, keys: &[u32], weights: &[u32], strip: &[u8]) -> Record {
    Record::new(used as u64, strip.len() as u64 / 3, sums_of(&keys[..used], &weights[..used]))
}

/// One count for each of the 16,777,216 keys: 64 MiB, cleared at each call.
pub fn counts(counts: &mut [u32], keys: &mut [u32], weights: &mut [u32], strip: &[u8]) -> Record {
    counts.fill(0);
    for pixel in strip.chunks_exact(3) {
        counts[key_of(pixel) as usize] += 1;
    }
    let mut used = 0;
    for (key, count) in counts.iter().enumerate().filter(|(_, count)| **count != 0) {
        (keys[used], weights[used]) = (key as u32, *count);
        used += 1;
    }
    record_of(used, keys, weights, strip)
}

/// A bit for each key (2 MiB) and the entries before each 64 of them (1 MiB): a pixel's place is worked out from both.
pub fn bits(bits: &mut [u64], before: &mut [u32], keys: &mut [u32], weights: &mut [u32], strip: &[u8]) -> Record {
    bits.fill(0);
    for pixel in strip.chunks_exact(3) {
        let key = key_of(pixel);
        bits[key as usize >> 6] |= 1 << (key & 63);
    }
    let mut used = 0;
    for (word, (some, before)) in bits.iter().zip(before.iter_mut()).enumerate() {
        *before = used as u32;
        let mut left = *some;
        while left != 0 {
            (keys[used], weights[used]) = ((word as u32) << 6 | left.trailing_zeros(), 0);
            used += 1;
            left &= left - 1;
        }
    }
    for pixel in strip.chunks_exact(3) {
        let key = key_of(pixel);
        let word = key as usize >> 6;
        let lower = bits[word] & ((1 << (key & 63)) - 1);
        weights[(before[word] + lower.count_ones()) as usize] += 1;
    }
    record_of(used, keys, weights, strip)
}
