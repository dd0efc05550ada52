//! The shortened round of a run whose groups' sums go on from round to round: a colour that goes to another group takes
//! what it gives along.
use super::groups::{Groups, Shades};
use super::rounds::{rows_of, walk};

/// The shortened round on good input, from the groups of the members: the distances worked out.
pub fn group_onward(keys: &[u32], weights: &[u32], shades: &Shades, members: &mut [u32], groups: &mut Groups) -> u64 {
    let rows = rows_of(shades);
    let mut distances = 0;
    groups.total = 0;
    for ((key, weight), member) in keys.iter().zip(weights).zip(members) {
        let (best, worked) = walk(*key, *member, shades, &rows);
        distances += worked;
        if best & 63 == *member {
            groups.total += *weight as u64 * (best >> 6) as u64;
        } else {
            groups.leave(*key, *weight, *member);
            *member = groups.join(*key, *weight, best);
        }
    }
    distances
}
