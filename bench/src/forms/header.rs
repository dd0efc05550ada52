//! Reading a P6 picture's header.

/// One or more white bytes or comments from `from` on: the place after them.
fn white(input: &[u8], from: usize) -> Option<usize> {
    let mut at = from;
    loop {
        at += input[at..].iter().take_while(|byte| b" \t\r\n".contains(byte)).count();
        if input.get(at) != Some(&b'#') {
            return (at > from).then_some(at);
        }
        at += 1 + input[at..].iter().position(|byte| b"\r\n".contains(byte))?;
    }
}

/// A number of 1 to 5 digits from `at` on, and the place after it.
fn number(input: &[u8], at: usize) -> Option<(u64, usize)> {
    let digits = input[at..].iter().take_while(|byte| byte.is_ascii_digit()).count();
    let value = input[at..at + digits].iter().fold(0, |value, digit| 10 * value + (digit - b'0') as u64);
    (1..=5).contains(&digits).then_some((value, at + digits))
}

/// Width, height and the raster's bytes, or none where the picture is refused.
pub fn picture(input: &[u8]) -> Option<[u64; 3]> {
    if !input.starts_with(b"P6") {
        return None;
    }
    let (width, at) = number(input, white(input, 2)?)?;
    let (height, at) = number(input, white(input, at)?)?;
    let (depth, at) = number(input, white(input, at)?)?;
    let first = at + b" \t\r\n".contains(input.get(at)?).then_some(1)?;
    let sides = (1..=16384).contains(&width) && (1..=16384).contains(&height) && width * height <= 1 << 24;
    let raster = (input.len() - first) as u64;
    (sides && depth == 255 && raster == 3 * width * height).then_some([width, height, raster])
}
