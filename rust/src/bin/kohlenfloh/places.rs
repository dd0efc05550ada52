//! Where the path of an output leads.
use std::fs::{self, OpenOptions, Permissions};
use std::io;
use std::os::unix::ffi::OsStrExt;
use std::path::{Path, PathBuf};

/// The most links that are followed to a file that is not there yet, as many as the system follows.
const MOST_LINKS: usize = 40;

/// What an output's bytes go to.
pub enum Target {
    /// A regular file, at the place that all links lead to, and the permissions of the one that is there.
    File { place: PathBuf, permissions: Option<Permissions> },
    /// What is written as it stands, such as a pipe, a device or standard output.
    Stream,
}

impl Target {
    /// What an output's bytes go to, or why they cannot. No path means standard output.
    pub fn of(path: Option<&Path>) -> io::Result<Target> {
        let Some(path) = path else { return Ok(Target::Stream) };
        let Ok(former) = fs::metadata(path) else {
            return Ok(Target::File { place: place(path)?, permissions: None });
        };
        if former.is_dir() {
            return Err(io::ErrorKind::IsADirectory.into());
        }
        // Whoever may write everything respects a file that nobody is to write.
        if former.permissions().readonly() {
            return Err(io::ErrorKind::PermissionDenied.into());
        }
        if !former.is_file() {
            return Ok(Target::Stream);
        }
        OpenOptions::new().write(true).open(path)?;
        Ok(Target::File { place: place(path)?, permissions: Some(former.permissions()) })
    }
}

/// The place that a path leads to through all links, also where there is no file yet.
pub fn place(path: &Path) -> io::Result<PathBuf> {
    let mut path = path.to_path_buf();
    for _ in 0..MOST_LINKS {
        let name = path.file_name().filter(|name| path.as_os_str().as_bytes().ends_with(name.as_bytes()));
        let name = name.ok_or(io::ErrorKind::IsADirectory)?;
        let folder = path.parent().filter(|folder| !folder.as_os_str().is_empty()).unwrap_or(Path::new("."));
        let folder = fs::canonicalize(folder)?;
        match fs::read_link(folder.join(name)) {
            Ok(target) => path = folder.join(target),
            Err(_) => return Ok(folder.join(name)),
        }
    }
    Err(io::ErrorKind::TooManyLinks.into())
}
