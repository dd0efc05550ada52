//! Numbers as a reader wants them, by whole-number arithmetic alone.

/// A quotient to two digits after the point, rounded to the nearest, halves up: the whole part of
/// (200 part + whole) / (2 whole), in hundredths.
pub fn quotient(part: u64, whole: u64) -> String {
    let hundredths = (200 * part + whole) / (2 * whole);
    format!("{}.{:02}", hundredths / 100, hundredths % 100)
}

/// A part of a whole in percent, to two digits after the point. A part that is there and below 0.01 % is told as such.
pub fn percent(part: u64, whole: u64) -> String {
    if part > 0 && 10_000 * part < whole {
        return "<0.01".into();
    }
    quotient(100 * part, whole)
}

/// A number with a comma before each group of three digits.
pub fn grouped(number: u64) -> String {
    let digits = number.to_string();
    let mut text = String::new();
    for (place, digit) in digits.chars().enumerate() {
        if place > 0 && (digits.len() - place).is_multiple_of(3) {
            text.push(',');
        }
        text.push(digit);
    }
    text
}

#[cfg(test)]
mod tests {
    use super::{grouped, percent, quotient};

    #[test]
    fn quotients_are_rounded_halves_up() {
        assert_eq!(quotient(0, 7), "0.00");
        assert_eq!(quotient(1, 200), "0.01");
        assert_eq!(quotient(1, 201), "0.00");
        assert_eq!(quotient(200, 3), "66.67");
        assert_eq!(quotient(100 * 16_777_215, 16_777_216), "100.00");
        assert_eq!(quotient(3_272_815_411_200, 16_777_216), "195075.00");
    }

    #[test]
    fn a_part_below_a_hundredth_of_a_percent_is_told_as_such() {
        assert_eq!(percent(0, 16_777_216), "0.00");
        assert_eq!(percent(1, 16_777_216), "<0.01");
        assert_eq!(percent(1, 10_001), "<0.01");
        assert_eq!(percent(1, 10_000), "0.01");
        assert_eq!(percent(16_777_215, 16_777_216), "100.00");
    }

    #[test]
    fn digits_stand_in_groups_of_three() {
        assert_eq!(grouped(0), "0");
        assert_eq!(grouped(999), "999");
        assert_eq!(grouped(1000), "1,000");
        assert_eq!(grouped(16_777_216), "16,777,216");
    }
}
