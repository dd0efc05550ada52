//! Files put in their place so that it can be undone: what stood there is kept beside it.
use std::fs::{self, File};
use std::io;
use std::path::{Path, PathBuf};

use crate::temporary::{with_free_name, Temporary};

/// A place that an output has come to. It is either settled or undone.
pub struct Replaced {
    place: PathBuf,
    /// Where the former file is kept; none where there was none.
    kept: Option<PathBuf>,
}

impl Replaced {
    /// Puts a temporary file at a place, which stays as it was where this fails.
    pub fn by(temporary: Temporary, place: PathBuf) -> io::Result<Replaced> {
        let kept = keep(&place)?;
        match (temporary.rename(&place), kept) {
            (Ok(()), kept) => Ok(Replaced { place, kept }),
            (Err(why), Some(kept)) => {
                bring_back(&kept, &place);
                Err(why)
            }
            (Err(why), None) => Err(why),
        }
    }

    /// Has the place as it was.
    pub fn undo(self) {
        match self.kept {
            Some(kept) => bring_back(&kept, &self.place),
            None => remove(&self.place),
        }
    }

    /// Removes the former file for good.
    pub fn settle(self) {
        self.kept.iter().for_each(|kept| remove(kept));
    }
}

/// Keeps what stands at a place under a name of its own, and answers the name; none where nothing stands there.
fn keep(place: &Path) -> io::Result<Option<PathBuf>> {
    match fs::symlink_metadata(place) {
        Ok(former) if former.is_dir() => Err(io::ErrorKind::IsADirectory.into()),
        Ok(_) => keep_by_link(place).or_else(|_| keep_by_rename(place)).map(Some),
        Err(why) if why.kind() == io::ErrorKind::NotFound => Ok(None),
        Err(why) => Err(why),
    }
}

/// Keeps a file by a second name, so that its place is never empty.
fn keep_by_link(place: &Path) -> io::Result<PathBuf> {
    with_free_name(place, |kept| fs::hard_link(place, kept)).map(|(kept, ())| kept)
}

/// Keeps a file by another name, where the file system gives it no second one. An empty file holds that name before.
fn keep_by_rename(place: &Path) -> io::Result<PathBuf> {
    let (kept, _) = with_free_name(place, |kept| File::create_new(kept))?;
    fs::rename(place, &kept).inspect_err(|_| remove(&kept))?;
    Ok(kept)
}

/// Brings a kept file back to its place. What cannot come back stays where it is kept.
fn bring_back(kept: &Path, place: &Path) {
    if fs::rename(kept, place).is_ok() {
        // Where both are names of one file, the rename has left both.
        remove(kept);
    }
}

/// Removes a file if it is there.
fn remove(path: &Path) {
    // What cannot be removed is no reason to stop: all else is in its place.
    let _ = fs::remove_file(path);
}

#[cfg(test)]
mod tests {
    use super::{bring_back, keep_by_link, keep_by_rename, Replaced, Temporary};
    use std::fs;
    use std::io::Write;
    use std::path::{Path, PathBuf};

    /// An empty folder for one test.
    fn folder(name: &str) -> PathBuf {
        let path = std::env::temp_dir().join(format!("kohlenfloh-{name}-{}", std::process::id()));
        fs::create_dir(&path).unwrap();
        path
    }

    /// A file with some text.
    fn written(folder: &Path, text: &str) -> PathBuf {
        let path = folder.join("written");
        fs::write(&path, text).unwrap();
        path
    }

    #[test]
    fn a_kept_file_comes_back() {
        for (name, keep) in [("link", keep_by_link as fn(&_) -> _), ("rename", keep_by_rename)] {
            let folder = folder(name);
            let place = folder.join("index.pgm");
            fs::write(&place, "former").unwrap();
            // Once where nothing came to the place, and once where an output did.
            for output in [None, Some("output")] {
                let kept = keep(&place).unwrap();
                output.iter().for_each(|output| fs::rename(written(&folder, output), &place).unwrap());
                bring_back(&kept, &place);
                assert_eq!(fs::read(&place).unwrap(), b"former");
                assert_eq!(fs::read_dir(&folder).unwrap().count(), 1);
            }
            fs::remove_dir_all(folder).unwrap();
        }
    }

    #[test]
    fn what_is_undone_leaves_no_trace_and_what_is_settled_the_output_alone() {
        let folder = folder("replaced");
        let place = folder.join("index.pgm");
        let replace = |text: &str| {
            let (temporary, mut file) = Temporary::beside(&place).unwrap();
            file.write_all(text.as_bytes()).unwrap();
            Replaced::by(temporary, place.clone()).unwrap()
        };
        let count = || fs::read_dir(&folder).unwrap().count();
        replace("first").undo();
        assert_eq!(count(), 0);
        replace("first").settle();
        replace("second").undo();
        assert_eq!((fs::read(&place).unwrap(), count()), (b"first".to_vec(), 1));
        replace("second").settle();
        assert_eq!((fs::read(&place).unwrap(), count()), (b"second".to_vec(), 1));
        fs::remove_dir_all(folder).unwrap();
    }
}
