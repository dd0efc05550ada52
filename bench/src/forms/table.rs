//! Adding a strip to a table: the table's test, then lists of runs, sorted and merged.
use super::merge::Merge;
use super::{key_of, runs};
use kohlenfloh::Record;

/// A test of a record and its entries.
pub type Test = fn(Record, &[u32], &[u32]) -> bool;

/// Whether the counts of a record can be those of a table in slices of these lengths.
fn counts_fit(record: Record, keys: &[u32], weights: &[u32]) -> bool {
    record.used <= keys.len().min(weights.len()).min(1 << 20) as u64 && record.pixels <= 1 << 24
}

/// The sums of weight times level of R, G and B over entries of at most 2^24 pixels: below 2^32.
pub fn sums_of(keys: &[u32], weights: &[u32]) -> [u64; 3] {
    let mut sums = [0u32; 3];
    for (key, weight) in keys.iter().zip(weights) {
        sums[0] += weight * (key >> 16);
        sums[1] += weight * (key >> 8 & 255);
        sums[2] += weight * (key & 255);
    }
    sums.map(u64::from)
}

/// Whether record and used entries are a table: every pass goes through to its end. The weights are judged before the
/// sums, which then are below 2^32.
pub fn is_table(record: Record, keys: &[u32], weights: &[u32]) -> bool {
    if !counts_fit(record, keys, weights) {
        return false;
    }
    let used = record.used as usize;
    let (keys, weights) = (&keys[..used], &weights[..used]);
    let falls = keys.windows(2).map(|pair| (pair[1] <= pair[0]) as u32).sum::<u32>();
    let (mut zeros, mut pixels) = (0, 0);
    for weight in weights {
        zeros += (*weight == 0) as u32;
        pixels += *weight as u64;
    }
    if falls + zeros != 0 || pixels != record.pixels || used > 0 && keys[used - 1] >= 1 << 24 {
        return false;
    }
    sums_of(keys, weights) == [record.red, record.green, record.blue]
}

/// The same in one pass, with two sums of weight times a number of the key. Where R, G and B are the sums of levels,
/// the two are 65536 R + 256 G + B and R + 16777216 B; no other three numbers of at most 255 * 2^24 have both.
pub fn is_table_packed(record: Record, keys: &[u32], weights: &[u32]) -> bool {
    let Record { used, pixels, red, green, blue, .. } = record;
    if !counts_fit(record, keys, weights) || red.max(green).max(blue) > 255 << 24 {
        return false;
    }
    let Some(last) = (used as usize).checked_sub(1) else { return record == Record::default() };
    let mut faults = (keys[last] >= 1 << 24 || weights[last] == 0) as u32;
    let (mut total, [mut first, mut second]) = (weights[last] as u64, packed(keys[last], weights[last]));
    for ((key, next), weight) in keys[..last].iter().zip(&keys[1..]).zip(weights) {
        faults += (next <= key) as u32 + (*weight == 0) as u32;
        total += *weight as u64;
        // Where these go round at 2^64 the total is above 2^24.
        let [one, other] = packed(*key, *weight);
        first = first.wrapping_add(one);
        second = second.wrapping_add(other);
    }
    let sums = (65536 * red + 256 * green + blue, red + 16777216 * blue);
    faults == 0 && total == pixels && (first, second) == sums
}

/// What an entry gives to the two sums.
#[inline(always)]
fn packed(key: u32, weight: u32) -> [u64; 2] {
    [key, key << 24 | key >> 16].map(|number| weight as u64 * number as u64)
}

/// The sums of the levels R, G and B of some pixels: by columns of rows of 48 bytes, of which 256 fit 16 bits.
fn sums_of_pixels(strip: &[u8]) -> [u64; 3] {
    let mut sums = [0; 3];
    for part in strip.chunks(48 * 256) {
        let mut columns = [0u16; 48];
        let rows = part.chunks_exact(48);
        let rest = rows.remainder().iter().map(|level| *level as u64);
        for row in rows {
            columns.iter_mut().zip(row).for_each(|(sum, level)| *sum += *level as u16);
        }
        for (place, sum) in columns.into_iter().map(u64::from).chain(rest).enumerate() {
            sums[place % 3] += sum;
        }
    }
    sums
}

/// How a strip is added: the table's test, and the way in which runs are taken in.
#[derive(Clone, Copy)]
pub struct Adding {
    pub test: Test,
    pub merge: Merge,
}

/// Adds a strip. Where it is refused or does not go in whole, the program ends.
pub fn add(adding: Adding, record: &mut Record, keys: &mut [u32], weights: &mut [u32], strip: &[u8]) {
    assert!(strip.len().is_multiple_of(3) && (adding.test)(*record, keys, weights), "refused");
    assert!(record.pixels + strip.len() as u64 / 3 <= 1 << 24, "full");
    match strip.len() / 3 {
        0 => {}
        1..=4096 => take::<4096>(adding.merge, record, keys, weights, strip),
        _ => take::<65536>(adding.merge, record, keys, weights, strip),
    }
}

/// Takes a strip into a table in lists of at most `MOST` runs.
#[inline(never)]
fn take<const MOST: usize>(merge: Merge, record: &mut Record, keys: &mut [u32], weights: &mut [u32], strip: &[u8]) {
    let (mut list, mut other) = ([0; MOST], [0; MOST]);
    let mut left = strip;
    while !left.is_empty() {
        let (len, pixels) = runs::gather(left, &mut list);
        let [red, green, blue] = sums_of_pixels(&left[..3 * pixels]);
        runs::sort(&mut list[..len], &mut other[..len]);
        let used = merge(keys, weights, record.used as usize, &mut list[..len], &mut other[..len]).expect("full");
        let sums = [record.red + red, record.green + green, record.blue + blue];
        *record = Record::new(used as u64, record.pixels + pixels as u64, sums);
        left = &left[3 * pixels..];
    }
}

/// Adds a strip pixel by pixel: the place by halving, and the entries above a new colour moved up.
pub fn add_plain(record: &mut Record, keys: &mut [u32], weights: &mut [u32], strip: &[u8]) {
    assert!(strip.len().is_multiple_of(3) && is_table_packed(*record, keys, weights), "refused");
    for pixel in strip.chunks_exact(3) {
        let (key, used) = (key_of(pixel), record.used as usize);
        match keys[..used].binary_search(&key) {
            Ok(at) => weights[at] += 1,
            Err(at) => {
                assert!(used < keys.len().min(weights.len()), "full");
                keys.copy_within(at..used, at + 1);
                weights.copy_within(at..used, at + 1);
                (keys[at], weights[at]) = (key, 1);
                record.used += 1;
            }
        }
        record.pixels += 1;
        record.red += pixel[0] as u64;
        record.green += pixel[1] as u64;
        record.blue += pixel[2] as u64;
    }
}
