//! Outputs that would overwrite the picture or each other are refused before anything is read.
use std::fs::{self, File, Metadata};
use std::io;
use std::os::fd::AsFd;
use std::os::unix::fs::MetadataExt;
use std::path::{Path, PathBuf};

use crate::failure::Failure;
use crate::files::{self, unwritable};
use crate::input;
use crate::options::Options;
use crate::places::{place, Target};

/// What tells a file from others, however it is spelled.
#[derive(PartialEq)]
enum Identity {
    /// The device and the number of what exists.
    Node(u64, u64),
    /// The place of what does not exist yet.
    Place(PathBuf),
}

/// Refuses outputs that clash, and then outputs that cannot be written as far as can be told beforehand.
pub fn check(options: &Options) -> Result<(), Failure> {
    let picture = of_picture(options.picture.as_deref());
    let mut met: Vec<(Identity, Option<&Path>)> = Vec::new();
    for (output, path) in &options.outputs {
        let path = path.as_deref();
        let Some(identity) = of_output(path) else { continue };
        if picture.as_ref() == Some(&identity) {
            let picture = input::path_of(options.picture.as_deref().or(path)).display();
            return Err(Failure::Usage(format!("{} would overwrite the picture {picture}", output.name())));
        }
        if let Some((_, other)) = met.iter().find(|(other, _)| *other == identity) {
            let both = files::path_of(path.or(*other)).display();
            return Err(Failure::Usage(format!("two outputs cannot both be {both}")));
        }
        met.push((identity, path));
    }
    for (_, path) in &options.outputs {
        Target::of(path.as_deref()).map_err(|why| unwritable(path.as_deref(), why))?;
    }
    Ok(())
}

impl Identity {
    /// The identity of what a path leads to. A path that leads nowhere is told by its spelling.
    fn of(path: &Path) -> Identity {
        match fs::metadata(path) {
            Ok(found) => Identity::of_node(&found),
            Err(_) => Identity::Place(place(path).unwrap_or(path.into())),
        }
    }

    /// The identity of what exists.
    fn of_node(found: &Metadata) -> Identity {
        Identity::Node(found.dev(), found.ino())
    }
}

/// The picture's identity. What is no regular file, such as a terminal, is not overwritten by what is written to it.
fn of_picture(picture: Option<&Path>) -> Option<Identity> {
    let Some(path) = picture else { return of_stream(io::stdin()) };
    let stream = fs::metadata(path).is_ok_and(|found| !found.is_file());
    (!stream).then(|| Identity::of(path))
}

/// An output's identity.
fn of_output(path: Option<&Path>) -> Option<Identity> {
    match path {
        Some(path) => Some(Identity::of(path)),
        None => of_stream(io::stdout()),
    }
}

/// The identity of the regular file that a stream of the program is, if it is one.
fn of_stream(stream: impl AsFd) -> Option<Identity> {
    let found = File::from(stream.as_fd().try_clone_to_owned().ok()?).metadata().ok()?;
    found.is_file().then(|| Identity::of_node(&found))
}
