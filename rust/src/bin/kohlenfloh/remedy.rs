//! Command lines that lead past a refusal, to be copied: other programs make a picture that is read.
use std::path::Path;

use crate::options::Options;

/// The programs that make of a picture one that is read.
pub struct Way {
    /// The package that has them.
    package: &'static str,
    /// The first program, before a file's name.
    of_file: &'static str,
    /// The first program where it reads standard input.
    of_pipe: &'static str,
    /// The programs after it.
    rest: &'static str,
}

impl Way {
    /// Any depth becomes 255, and comments are left out.
    pub const DEPTH_255: Way = Way::netpbm("pamdepth 255", "");

    /// Each level is brought to one of 101, which leaves 101 to the third, 1,030,301 colours.
    pub const FEWER_COLOURS: Way = Way::netpbm("pamdepth 100", " | pamdepth 255");

    /// A WebP picture becomes a P6 picture.
    pub const WEBP: Way =
        Way { package: "webp", of_file: "dwebp -quiet -ppm -o - --", of_pipe: "dwebp -quiet -ppm -o - -- -", rest: "" };

    /// Programs of Netpbm. These read standard input where no file is named.
    pub const fn netpbm(first: &'static str, rest: &'static str) -> Way {
        Way { package: "netpbm", of_file: first, of_pipe: first, rest }
    }

    /// Says what the programs do for a picture, and on a line of its own how they are asked.
    pub fn advice(&self, does: &str, options: &Options) -> String {
        let Way { package, of_file, of_pipe, rest } = self;
        let first = match options.picture.as_deref().and_then(quoted) {
            Some(name) => format!("{of_file} {name}"),
            None => format!("... | {of_pipe}"),
        };
        let run = options.run();
        format!("With {package} installed, {does}:\n    {first}{rest} | kohlenfloh shades {run}")
    }
}

/// A path as a shell takes it for one word, in quotes where it needs them; none for a path that cannot be shown.
fn quoted(path: &Path) -> Option<String> {
    let name = path.to_str().filter(|name| !name.contains(char::is_control))?;
    let name = if name.starts_with('-') { format!("./{name}") } else { name.into() };
    let plain = |character: char| character.is_ascii_alphanumeric() || "_-./,:+@%".contains(character);
    if name.chars().all(plain) {
        return Some(name);
    }
    Some(format!("'{}'", name.replace('\'', r"'\''")))
}

#[cfg(test)]
mod tests {
    use super::{quoted, Path};

    #[test]
    fn a_path_is_quoted_where_a_shell_would_change_it() {
        for (path, word) in [
            ("rug.png", "rug.png"),
            ("/art/rug_7-a.png", "/art/rug_7-a.png"),
            ("-rug.png", "./-rug.png"),
            ("my rug.png", "'my rug.png'"),
            ("$HOME", "'$HOME'"),
            ("~rug", "'~rug'"),
            ("it's.png", r"'it'\''s.png'"),
            ("räg.png", "'räg.png'"),
        ] {
            assert_eq!(quoted(Path::new(path)).as_deref(), Some(word));
        }
        assert_eq!(quoted(Path::new("two\nlines")), None);
    }
}
