//! Temporary files: beside the place of an output, under names that nobody else uses.
use std::fs::{self, File};
use std::io;
use std::path::{Path, PathBuf};
use std::sync::atomic::{AtomicUsize, Ordering};

use crate::signals;

/// The most names that are tried for one file.
const MOST_TRIES: usize = 1000;

/// The number of the name that is tried next. No name is tried twice, so none is used twice.
static NEXT: AtomicUsize = AtomicUsize::new(0);

/// A temporary file. It is removed when this is dropped, and when a signal ends the program.
pub struct Temporary(PathBuf);

impl Temporary {
    /// Creates a temporary file beside a place.
    pub fn beside(place: &Path) -> io::Result<(Temporary, File)> {
        let (path, file) = with_free_name(place, signals::create)?;
        Ok((Temporary(path), file))
    }

    /// Makes the file the one at a place.
    pub fn rename(self, place: &Path) -> io::Result<()> {
        fs::rename(&self.0, place)
    }
}

impl Drop for Temporary {
    fn drop(&mut self) {
        // After a rename there is nothing to remove.
        let _ = fs::remove_file(&self.0);
    }
}

/// Makes something beside a place, under a name that is free. One that is left of another run is passed over.
pub fn with_free_name<T>(place: &Path, make: impl Fn(&Path) -> io::Result<T>) -> io::Result<(PathBuf, T)> {
    for _ in 0..MOST_TRIES {
        let number = NEXT.fetch_add(1, Ordering::Relaxed);
        let path = place.with_file_name(format!(".kohlenfloh.{}.{number}", std::process::id()));
        match make(&path) {
            Err(why) if why.kind() == io::ErrorKind::AlreadyExists => {}
            made => return made.map(|made| (path, made)),
        }
    }
    Err(io::ErrorKind::AlreadyExists.into())
}
