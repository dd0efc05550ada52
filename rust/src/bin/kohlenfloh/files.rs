//! Outputs that come all of them or none: written beside their places, then renamed.
use std::fs::OpenOptions;
use std::io::{self, BufWriter, Write};
use std::path::{Path, PathBuf};

use crate::failure::Failure;
use crate::outputs::Output;
use crate::places::Target;
use crate::replaced::Replaced;
use crate::signals;
use crate::temporary::Temporary;

/// An output whose bytes are made, but not at their place. Dropped there, it leaves no trace.
enum Staged<'a> {
    /// A temporary file is to be renamed.
    File { path: &'a Path, temporary: Temporary, place: PathBuf },
    /// Bytes are to be written to what is no regular file, such as a pipe; no path means standard output.
    Stream { path: Option<&'a Path>, bytes: Vec<u8> },
}

/// Writes what each output holds to its path, or to standard output where it has none. No file comes to its place
/// before all files and streams are written.
pub fn write_all(
    outputs: &[(Output, Option<PathBuf>)],
    contents: impl Fn(Output, &mut dyn Write) -> io::Result<()>,
) -> Result<(), Failure> {
    let mut staged = Vec::new();
    for (output, path) in outputs {
        let path = path.as_deref();
        staged.push(stage(path, |to| contents(*output, to)).map_err(|why| unwritable(path, why))?);
    }
    let mut files = Vec::new();
    for output in staged {
        match output {
            Staged::File { path, temporary, place } => files.push((path, temporary, place)),
            Staged::Stream { path: Some(path), bytes } => write(path, &bytes)?,
            Staged::Stream { path: None, bytes } => print(&bytes)?,
        }
    }
    put_in_place(files)
}

/// Prints bytes on standard output. A reader that has gone away has read all it wanted.
pub fn print(bytes: &[u8]) -> Result<(), Failure> {
    let mut out = io::stdout().lock();
    match out.write_all(bytes).and_then(|()| out.flush()) {
        Err(why) if why.kind() != io::ErrorKind::BrokenPipe => Err(unwritable(None, why)),
        _ => Ok(()),
    }
}

/// What messages call where an output goes: its path as it was given.
pub fn path_of(path: Option<&Path>) -> &Path {
    path.unwrap_or(Path::new("standard output"))
}

/// The failure to write an output.
pub fn unwritable(path: Option<&Path>, why: io::Error) -> Failure {
    Failure::Unwritable { path: path_of(path).into(), why }
}

/// Writes what an output holds beside its place, with the permissions of the former file; what is no file is kept until
/// it is written.
fn stage(path: Option<&Path>, contents: impl Fn(&mut dyn Write) -> io::Result<()>) -> io::Result<Staged<'_>> {
    match (Target::of(path)?, path) {
        (Target::File { place, permissions }, Some(path)) => {
            let (temporary, file) = Temporary::beside(&place)?;
            if let Some(permissions) = permissions {
                file.set_permissions(permissions)?;
            }
            let mut to = BufWriter::new(file);
            contents(&mut to)?;
            to.flush()?;
            Ok(Staged::File { path, temporary, place })
        }
        (_, path) => {
            let mut bytes = Vec::new();
            contents(&mut bytes)?;
            Ok(Staged::Stream { path, bytes })
        }
    }
}

/// Writes bytes to what stands at a path.
fn write(path: &Path, bytes: &[u8]) -> Result<(), Failure> {
    let written = OpenOptions::new().write(true).open(path).and_then(|mut to| to.write_all(bytes));
    written.map_err(|why| unwritable(Some(path), why))
}

/// Puts all files in their places. Where one cannot be, all places are as they were. Signals wait until this is done.
fn put_in_place(files: Vec<(&Path, Temporary, PathBuf)>) -> Result<(), Failure> {
    let _held = signals::hold();
    let mut done: Vec<Replaced> = Vec::new();
    for (path, temporary, place) in files {
        match Replaced::by(temporary, place) {
            Ok(replaced) => done.push(replaced),
            Err(why) => {
                done.into_iter().for_each(Replaced::undo);
                return Err(unwritable(Some(path), why));
            }
        }
    }
    done.into_iter().for_each(Replaced::settle);
    Ok(())
}
