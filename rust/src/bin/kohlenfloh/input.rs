//! The picture's bytes, from a file or from standard input.
use std::fs::File;
use std::io::{self, Read};
use std::path::Path;

use kohlenfloh::Refusal;

use crate::failure::Failure;
use crate::names::shown;

/// The most bytes of an input. The longest raster has 48 MiB, which leaves 16 MiB for a header; a longer input is
/// refused, and so an endless one too.
const MOST_BYTES: u64 = 64 * 1024 * 1024;

/// What a picture is called that has no file.
const STANDARD_INPUT: &str = "standard input";

/// Reads the picture, from standard input where no file is named. One that is too long is BAD SIZE.
pub fn read(picture: Option<&Path>) -> Result<Vec<u8>, Failure> {
    let read = match picture {
        Some(path) => read_file(path),
        None => read_all(io::stdin().lock(), 0),
    };
    match read {
        Ok(bytes) if bytes.len() as u64 > MOST_BYTES => {
            let meaning = "the input is longer than 64 MiB".into();
            Err(Failure::Refused {
                name: path_of(picture).to_string_lossy().into(),
                refusal: Refusal::BadSize,
                meaning,
            })
        }
        Ok(bytes) => Ok(bytes),
        Err(why) => Err(Failure::Unreadable { path: path_of(picture).into(), why }),
    }
}

/// What messages call the picture: its path as it was given.
pub fn path_of(picture: Option<&Path>) -> &Path {
    picture.unwrap_or(Path::new(STANDARD_INPUT))
}

/// What the sheet calls the picture: its file's name alone.
pub fn name(picture: Option<&Path>) -> String {
    let path = path_of(picture);
    shown(path.file_name().unwrap_or(path.as_os_str()))
}

/// Reads a file, with room for its length made beforehand.
fn read_file(path: &Path) -> io::Result<Vec<u8>> {
    let file = File::open(path)?;
    let length = file.metadata()?.len();
    read_all(file, length)
}

/// Reads to the end, or to a byte more than an input may have.
fn read_all(from: impl Read, length: u64) -> io::Result<Vec<u8>> {
    let mut bytes = Vec::with_capacity(length.min(MOST_BYTES) as usize);
    from.take(MOST_BYTES + 1).read_to_end(&mut bytes)?;
    Ok(bytes)
}
