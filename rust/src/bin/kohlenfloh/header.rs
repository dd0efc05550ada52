//! The numbers in a P6 header, read once more for words alone: what they are worth, the library has judged.

/// What a P6 header says, in its own digits, and what follows it.
pub struct Header<'a> {
    /// Pixels in a row.
    pub width: &'a str,
    /// Rows.
    pub height: &'a str,
    /// The greatest level.
    pub depth: &'a str,
    /// All bytes after the header.
    pub raster: &'a [u8],
}

/// Reads a header; none where it ends early.
pub fn read(input: &[u8]) -> Option<Header<'_>> {
    let (width, rest) = number(input.strip_prefix(b"P6")?)?;
    let (height, rest) = number(rest)?;
    let (depth, rest) = number(rest)?;
    Some(Header { width, height, depth, raster: rest.get(1..)? })
}

/// Where the comment begins inside which an input ends that ends within its header; none where it ends inside none. A
/// line end ends any comment, so the first `#` of the last line opens one that never ends.
pub fn unended_comment(input: &[u8]) -> Option<usize> {
    let line = input.iter().rposition(is_line_end).map_or(0, |end| end + 1);
    input[line..].iter().position(|&byte| byte == b'#').map(|place| line + place)
}

/// What follows a comment's line; none where it never ends.
pub fn after_comment(input: &[u8]) -> Option<&[u8]> {
    input.iter().position(is_line_end).map(|end| &input[end + 1..])
}

impl Header<'_> {
    /// The sides in words.
    pub fn sides(&self) -> String {
        format!("{} by {} pixels", told(self.width), told(self.height))
    }

    /// The bytes that a raster of these sides has, or as many as can be counted.
    pub fn raster_bytes(&self) -> u64 {
        let side = |digits: &str| digits.parse().unwrap_or(u64::MAX);
        side(self.width).saturating_mul(side(self.height)).saturating_mul(3)
    }

    /// The depth, if it is one that a picture can have.
    pub fn possible_depth(&self) -> Option<u32> {
        self.depth.parse().ok().filter(|depth| (1..=65_535).contains(depth))
    }
}

/// A number by its own digits, or by how many they are where they would fill the line.
pub fn told(digits: &str) -> String {
    match digits.len() {
        0..=20 => digits.into(),
        length => format!("a number of {length} digits"),
    }
}

/// Whether a byte ends a comment.
fn is_line_end(byte: &u8) -> bool {
    matches!(byte, b'\r' | b'\n')
}

/// The digits that follow white bytes and comments, and what follows the digits; none for no digits.
fn number(input: &[u8]) -> Option<(&str, &[u8])> {
    let mut input = input.trim_ascii_start();
    while let Some(comment) = input.strip_prefix(b"#") {
        input = after_comment(comment)?.trim_ascii_start();
    }
    let end = input.iter().position(|byte| !byte.is_ascii_digit())?;
    let (digits, rest) = input.split_at(end);
    let digits = std::str::from_utf8(digits).ok().filter(|digits| !digits.is_empty())?;
    Some((digits, rest))
}

#[cfg(test)]
mod tests {
    use super::{read, unended_comment};

    #[test]
    fn numbers_of_any_length_are_told() {
        let long = format!("P6\t{0}  1\r\n{0}\n", "9".repeat(30));
        let header = read(long.as_bytes()).unwrap();
        assert_eq!(header.sides(), "a number of 30 digits by 1 pixels");
        assert_eq!((header.raster_bytes(), header.possible_depth()), (u64::MAX, None));
        let header = read(b"P6 18446744073709551615 2 65535 abc").unwrap();
        assert_eq!(header.sides(), "18446744073709551615 by 2 pixels");
        assert_eq!((header.raster_bytes(), header.possible_depth()), (u64::MAX, Some(65_535)));
        assert_eq!(header.raster, b"abc");
    }

    #[test]
    fn a_header_that_ends_early_is_none() {
        for input in ["", "P5 1 1 255 a", "P6", "P6 1 1", "P6 1 1 255", "P6 1 x 255 ", "P6 # 1 1 255 ", "P6 1 1#\n255"]
        {
            assert!(read(input.as_bytes()).is_none(), "{input}");
        }
    }

    #[test]
    fn comments_are_passed_over_before_the_depth_and_nowhere_else() {
        for input in [
            "P6\n# 7 8\n3 2\n255\n#9\n",
            "P6#7\r3#8\r\n2#\n#\n\t255\n#9\n",
            "P6 #P6 1 1 255 #\n 3\r# 2\n2 ##\r255 #9\n",
        ] {
            let header = read(input.as_bytes()).unwrap();
            assert_eq!((header.sides(), header.depth), ("3 by 2 pixels".into(), "255"), "{input}");
            assert_eq!(header.raster, b"#9\n", "{input}");
        }
    }

    #[test]
    fn a_comment_that_never_ends_is_the_first_on_the_last_line() {
        for (input, place) in [
            ("", None),
            ("P6 3 2", None),
            ("P6\n# ended\n3", None),
            ("P6\r# ended\r", None),
            ("#", Some(0)),
            ("P6#", Some(2)),
            ("P6\n# ended\n3 # and # more", Some(13)),
            ("P6\n# ended\r3#", Some(12)),
        ] {
            assert_eq!(unended_comment(input.as_bytes()), place, "{input}");
        }
    }
}
