//! The sums of the groups, the move of the shades to their groups' rounded means or past the means, and the means in
//! whole levels.
use super::palette::level_of;
use super::Point;

/// Some shades, with their count.
pub struct Shades {
    pub count: usize,
    pub at: [Point; 64],
}

impl Shades {
    /// The shades of some coordinates, which must be on the grid.
    pub fn of(coordinates: &[u32]) -> Shades {
        assert!(coordinates.len().is_multiple_of(3) && (3..=192).contains(&coordinates.len()), "bad count");
        assert!(coordinates.iter().all(|c| *c <= 4080), "bad centre");
        let mut shades = Shades { count: coordinates.len() / 3, at: [[0; 3]; 64] };
        for (shade, three) in shades.at.iter_mut().zip(coordinates.chunks_exact(3)) {
            *shade = [three[0] as i32, three[1] as i32, three[2] as i32];
        }
        shades
    }

    /// Writes the shades as coordinates.
    pub fn write(&self, coordinates: &mut [u32]) {
        for (three, shade) in coordinates.chunks_exact_mut(3).zip(&self.at[..self.count]) {
            three.copy_from_slice(&shade.map(|c| c as u32));
        }
    }
}

/// Where a coordinate moves, given its group's pixels, their sum of levels, and where it stands.
pub type Rule = fn(u64, u64, i32) -> i32;

/// Lloyd's rule: to the rounded mean.
pub fn to_mean(pixels: u64, sum: u64, _: i32) -> i32 {
    ((32 * sum + pixels) / (2 * pixels)) as i32
}

/// Jancey's rule: nine fifths of the way to the mean, rounded and held to the grid, where that is nearer to the exact
/// mean; else to the rounded mean.
pub fn past_mean(pixels: u64, sum: u64, old: i32) -> i32 {
    let (weight, coordinates, from) = (pixels as i64, 16 * sum as i64, i64::from(old));
    let far = (18 * coordinates - 8 * weight * from + 5 * weight).div_euclid(10 * weight).clamp(0, 4080);
    let off = |place: i64| (weight * place - coordinates).abs();
    if off(far) < off(from) {
        far as i32
    } else {
        to_mean(pixels, sum, old)
    }
}

/// The groups of a round: weight times red and green level in one number, weight times blue level and the weight in
/// another; and the round's total.
pub struct Groups {
    sums: [[u64; 2]; 64],
    pub total: u64,
}

impl Groups {
    /// No entry has joined.
    pub fn new() -> Groups {
        Groups { sums: [[0; 2]; 64], total: 0 }
    }

    /// An entry joins the shade whose distance and number stand in `best`: its number.
    #[inline(always)]
    pub fn join(&mut self, key: u32, weight: u32, best: u32) -> u32 {
        let (weight, number) = (weight as u64, best & 63);
        let sums = &mut self.sums[number as usize];
        sums[0] += weight * ((key as u64 >> 16) << 32 | (key as u64 >> 8 & 255));
        sums[1] += weight * ((key as u64 & 255) << 32 | 1);
        self.total += weight * (best >> 6) as u64;
        number
    }

    /// An entry leaves a group; the total stays.
    #[inline(always)]
    pub fn leave(&mut self, key: u32, weight: u32, number: u32) {
        let weight = weight as u64;
        let sums = &mut self.sums[(number & 63) as usize];
        sums[0] -= weight * ((key as u64 >> 16) << 32 | (key as u64 >> 8 & 255));
        sums[1] -= weight * ((key as u64 & 255) << 32 | 1);
    }

    /// The pixels of a group and its sums of R, G and B.
    fn sums_of(&self, number: usize) -> (u64, [u64; 3]) {
        let [first, second] = self.sums[number];
        (second & 0xffff_ffff, [first >> 32, first & 0xffff_ffff, second >> 32])
    }

    /// The levels nearest to a group's mean; none for an empty group.
    pub fn levels(&self, number: usize) -> Option<[u8; 3]> {
        let (pixels, sums) = self.sums_of(number);
        (pixels > 0).then(|| sums.map(|sum| level_of(sum, pixels)))
    }

    /// Moves each shade with a group by a rule, but for the first ones, so many, that are held: how many moved.
    pub fn move_shades(&self, rule: Rule, held: usize, shades: &mut Shades) -> u64 {
        let count = shades.count;
        let mut moved = 0;
        for (number, shade) in shades.at[..count].iter_mut().enumerate().skip(held) {
            let (pixels, sums) = self.sums_of(number);
            if pixels > 0 {
                let place = [0, 1, 2].map(|channel| rule(pixels, sums[channel], shade[channel]));
                moved += (place != *shade) as u64;
                *shade = place;
            }
        }
        moved
    }
}
