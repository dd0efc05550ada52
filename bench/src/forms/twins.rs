//! The twins of a palette: the first entry that equals one before it, and that one, the lower number first.
use super::key_of;

/// The numbers of two equal entries, if there are any.
pub type Twins = Option<(usize, usize)>;

/// The twins by comparing each entry with those before it.
pub fn pairwise(palette: &[u8]) -> Twins {
    let entries = palette.as_chunks::<3>().0;
    let lower = |higher: usize| entries[..higher].iter().position(|entry| *entry == entries[higher]);
    (0..entries.len()).find_map(|higher| lower(higher).map(|lower| (lower, higher)))
}

/// The twins by 256 slots, of which at most 64 are taken: an entry looks from the slot of its hashed key on for one
/// that holds the same key, and takes the first that is free.
pub fn hashed(palette: &[u8]) -> Twins {
    let mut slots = [0u32; 256];
    for (higher, entry) in palette.chunks_exact(3).enumerate() {
        // Key and number, the number raised by one: a slot that is taken never holds 0.
        let taken = key_of(entry) << 8 | (higher as u32 + 1);
        let mut slot = (key_of(entry).wrapping_mul(0x9e37_79b1) >> 24) as usize;
        while slots[slot] != 0 {
            if slots[slot] >> 8 == taken >> 8 {
                return Some(((slots[slot] & 255) as usize - 1, higher));
            }
            slot = (slot + 1) & 255;
        }
        slots[slot] = taken;
    }
    None
}
