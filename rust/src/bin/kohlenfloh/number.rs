//! Whole numbers as they are typed.
use std::borrow::Cow;
use std::ffi::OsStr;
use std::fmt;

/// A whole number of the command line. It prints as it was typed.
#[derive(Clone)]
pub struct Number {
    /// The number. One too great for the machine is as great as can be, and so is refused.
    pub value: usize,
    typed: Cow<'static, str>,
}

impl Number {
    /// The number where none is typed.
    pub const ZERO: Number = Number { value: 0, typed: Cow::Borrowed("0") };

    /// Reads a number that is written in decimal digits alone.
    pub fn read(text: &OsStr) -> Option<Number> {
        let digits = text.to_str().filter(|text| !text.is_empty() && text.bytes().all(|byte| byte.is_ascii_digit()))?;
        Some(Number { value: digits.parse().unwrap_or(usize::MAX), typed: digits.to_string().into() })
    }
}

impl fmt::Display for Number {
    fn fmt(&self, to: &mut fmt::Formatter<'_>) -> fmt::Result {
        to.write_str(&self.typed)
    }
}

#[cfg(test)]
mod tests {
    use super::Number;

    #[test]
    fn a_number_prints_as_it_was_typed() {
        for (typed, value) in [("0", 0), ("007", 7), ("18446744073709551616000", usize::MAX)] {
            let number = Number::read(typed.as_ref()).unwrap();
            assert_eq!((number.value, number.to_string().as_str()), (value, typed));
        }
        assert_eq!(Number::ZERO.to_string(), "0");
    }

    #[test]
    fn what_is_no_row_of_digits_is_no_number() {
        for text in ["", "+6", "-6", "6 ", "1.5", "six", "\u{661}"] {
            assert!(Number::read(text.as_ref()).is_none(), "{text}");
        }
    }
}
