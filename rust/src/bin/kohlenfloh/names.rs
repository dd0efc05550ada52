//! Names as they are shown, in messages and on the sheet.
use std::ffi::OsStr;

/// A name with a mark in place of each control character and of bytes that are no UTF-8, so that it stands on its line
/// and does nothing to a terminal.
pub fn shown(name: impl AsRef<OsStr>) -> String {
    let mark = |character: char| if character.is_control() { char::REPLACEMENT_CHARACTER } else { character };
    name.as_ref().to_string_lossy().chars().map(mark).collect()
}

#[cfg(test)]
mod tests {
    use super::shown;
    use std::ffi::OsStr;
    use std::os::unix::ffi::OsStrExt;

    #[test]
    fn what_would_not_show_gets_a_mark() {
        assert_eq!(shown("Jägerhaus, 2 \"Läufer\".ppm"), "Jägerhaus, 2 \"Läufer\".ppm");
        assert_eq!(shown("a\n\r\t\x1b[31mb\x7f\u{9b}c"), "a\u{fffd}\u{fffd}\u{fffd}\u{fffd}[31mb\u{fffd}\u{fffd}c");
        assert_eq!(shown(OsStr::from_bytes(b"a\xffb")), "a\u{fffd}b");
    }
}
