//! The pictures: a drawing, a scan and a photo, made from whole numbers alone, so that they are the same everywhere;
//! and those of the user's own files.
use std::path::Path;

/// A picture: its name, the pixels of a row, and its raster.
pub struct Picture {
    pub name: String,
    pub width: usize,
    pub raster: Vec<u8>,
}

impl Picture {
    /// The picture of a P6 file, named as the file is.
    pub fn of_file(path: &str) -> std::io::Result<Picture> {
        let bytes = std::fs::read(path)?;
        let read = kohlenfloh::Picture::read(&bytes).map_err(std::io::Error::other)?;
        let name = Path::new(path).file_stem().unwrap_or_default().to_string_lossy().into();
        Ok(Picture { name, width: read.width(), raster: read.raster().to_vec() })
    }

    /// How many pixels it has.
    pub fn pixels(&self) -> usize {
        self.raster.len() / 3
    }

    /// The picture as a P6 file's bytes.
    pub fn file(&self) -> Vec<u8> {
        let mut bytes = format!("P6\n{} {}\n255\n", self.width, self.pixels() / self.width).into_bytes();
        bytes.extend_from_slice(&self.raster);
        bytes
    }
}

/// Twenty-four yarns, as a rug house would hold them.
const YARNS: [[i64; 3]; 24] = [
    [120, 20, 28],
    [150, 36, 34],
    [92, 14, 24],
    [178, 60, 48],
    [24, 34, 74],
    [38, 58, 104],
    [66, 92, 134],
    [18, 22, 44],
    [206, 188, 150],
    [226, 212, 180],
    [184, 160, 118],
    [164, 128, 70],
    [196, 150, 60],
    [214, 174, 96],
    [58, 78, 50],
    [84, 104, 66],
    [118, 134, 92],
    [44, 56, 40],
    [70, 46, 32],
    [102, 70, 46],
    [34, 26, 22],
    [140, 96, 62],
    [198, 120, 86],
    [236, 226, 206],
];

/// A number whose bits are well stirred.
fn stirred(mut x: u64) -> u64 {
    x ^= x >> 30;
    x = x.wrapping_mul(0xbf58476d1ce4e5b9);
    x ^= x >> 27;
    x = x.wrapping_mul(0x94d049bb133111eb);
    x ^ (x >> 31)
}

/// A number that looks random, the same for the same seed and place.
fn chance(seed: u64, x: u64, y: u64) -> u64 {
    stirred(seed.wrapping_mul(0x9e3779b97f4a7c15) ^ stirred(x.wrapping_mul(0x2545f4914f6cdd1d) ^ (y << 32)))
}

/// The nearest level.
fn level(value: i64) -> u8 {
    value.clamp(0, 255) as u8
}

/// A square picture from the levels of each pixel.
fn painted(name: &str, side: usize, colour: impl Fn(i64, i64) -> [u8; 3]) -> Picture {
    let mut raster = Vec::with_capacity(3 * side * side);
    for y in 0..side as i64 {
        for x in 0..side as i64 {
            raster.extend_from_slice(&colour(x, y));
        }
    }
    Picture { name: name.into(), width: side, raster }
}

/// The yarn of a knot: borders, a medallion and stars, mirrored in both axes.
fn yarn_of(across: i64, down: i64, knots: i64) -> usize {
    let x = across.min(knots - 1 - across);
    let y = down.min(knots - 1 - down);
    let edge = x.min(y);
    match edge {
        0..=3 => return 7,
        4..=39 if edge % 12 == 0 => return 8,
        4..=39 => return ((x.max(y) / 3 + edge / 3) % 12 * 2 + edge / 12) as usize % 24,
        40..=43 => return 12,
        _ => {}
    }
    let (from_x, from_y) = (knots / 2 - x, knots / 2 - y);
    match from_x + from_y {
        near if near < 60 => return (near as usize / 6 * 5 + 3) % 24,
        near if near < 100 => return if (from_x / 4 + from_y / 4) % 2 == 0 { 4 } else { 9 },
        _ => {}
    }
    let star = (x % 16 - 8).abs() + (y % 16 - 8).abs();
    let draw = chance(7, x as u64 / 16, y as u64 / 16);
    if star < 7 {
        (draw >> (8 * (star / 2))) as usize % 24
    } else {
        0
    }
}

/// The colour of a drawing's pixel: its knot's yarn, in one of twelve dye lots for each band of rows.
fn drawn(x: i64, y: i64, side: usize, cell: i64) -> [u8; 3] {
    let yarn = yarn_of(x / cell, y / cell, side as i64 / cell);
    let lot = (chance(3, yarn as u64, (y / cell / 9) as u64) % 12) as i64 - 6;
    [0, 1, 2].map(|c| level(YARNS[yarn][c] + lot * 2 - c as i64 * (lot / 3)))
}

/// Smooth noise from 0 to 65,535, with a value drawn every `step` pixels.
fn noise(seed: u64, x: i64, y: i64, step: i64) -> i64 {
    let smooth = |t: i64| t * t * (768 - 2 * t) / 65536;
    let (right, below) = (smooth(x % step * 256 / step), smooth(y % step * 256 / step));
    let value = |a: i64, b: i64| (chance(seed, (x / step + a) as u64, (y / step + b) as u64) & 0xffff) as i64;
    let above_row = value(0, 0) * (256 - right) + value(1, 0) * right;
    let below_row = value(0, 1) * (256 - right) + value(1, 1) * right;
    (above_row * (256 - below) + below_row * below) / 65536
}

/// A drawing: flat fields, a few hundred colours.
pub fn drawing(side: usize) -> Picture {
    painted("drawing", side, |x, y| drawn(x, y, side, 4))
}

/// A scan: a drawing under uneven light, on tinted paper, with a sensor's grain.
pub fn scan(side: usize) -> Picture {
    painted("scan", side, |x, y| {
        let base = drawn(x, y, side, 16);
        let (light, tint) = (noise(11, x, y, 1024) / 2048, noise(13, x, y, 512) / 2048);
        let shine = [light, (light + tint) / 2, tint];
        let grain = chance(17, x as u64, y as u64);
        let part = |bits: usize| ((grain >> bits) & 1023) as i64 * 19 / 1024 - 9;
        [0, 1, 2].map(|c| level(base[c] as i64 * 7 / 8 + shine[c] + (part(20 * c) + part(20 * c + 10)) / 2))
    })
}

/// A photo: light and tint at every scale, so that nearly every pixel has a colour of its own.
pub fn photo(side: usize) -> Picture {
    painted("photo", side, |x, y| {
        let scales = [(256, 128), (128, 64), (64, 32), (32, 16), (16, 8), (8, 4), (4, 2)];
        let light: i64 = scales.iter().map(|&(step, most)| noise(100 + step as u64, x, y, step) * most / 65536).sum();
        let (red, blue) = (noise(201, x, y, 128) / 512 - 64, noise(202, x, y, 128) / 512 - 64);
        let grain = chance(19, x as u64, y as u64);
        let part = |c: u32| ((grain >> (8 * c)) & 7) as i64 - 3;
        [level(light + red + part(0)), level(light - (red + blue) / 2 + part(1)), level(light + blue + part(2))]
    })
}
