//! Running the built program, in a folder of its own.
#![allow(dead_code, reason = "each file of tests uses a part of this")]
use std::fs;
use std::io::Write;
use std::path::{Path, PathBuf};
use std::process::{Command, Output, Stdio};

/// The picture that comes with the repository.
pub const RUG: &str = concat!(env!("CARGO_MANIFEST_DIR"), "/../examples/rug.ppm");

/// A picture of 1024 by 1025 pixels, each of a colour of its own: one row more than a table has entries for.
pub fn too_many_colours() -> Vec<u8> {
    let raster = (0..1024 * 1025_u32).flat_map(|number| (15 * number).to_be_bytes()[1..].to_vec());
    b"P6 1024 1025 255\n".iter().copied().chain(raster).collect()
}

/// The options that name an output file, and the file that the tests name.
pub const OUTPUTS: [(&str, &str); 4] =
    [("--index", "index.pgm"), ("--palette", "palette.ppm"), ("--preview", "preview.ppm"), ("--sheet", "sheet.svg")];

/// A folder for one test, removed when the test is done.
pub struct Folder(PathBuf);

impl Folder {
    /// An empty folder with a name that no other test uses.
    pub fn new(name: &str) -> Folder {
        let path = Path::new(env!("CARGO_TARGET_TMPDIR")).join(format!("{name}-{}", std::process::id()));
        fs::create_dir(&path).unwrap();
        Folder(path)
    }

    /// A path in this folder.
    pub fn path(&self, name: &str) -> String {
        self.0.join(name).to_str().unwrap().into()
    }

    /// Writes a file in this folder and answers its path.
    pub fn write(&self, name: &str, bytes: &[u8]) -> String {
        fs::write(self.0.join(name), bytes).unwrap();
        self.path(name)
    }

    /// Reads a file in this folder.
    pub fn read(&self, name: &str) -> Vec<u8> {
        fs::read(self.0.join(name)).unwrap()
    }

    /// The names of all files in this folder, sorted.
    pub fn names(&self) -> Vec<String> {
        let entries = fs::read_dir(&self.0).unwrap();
        let mut names: Vec<String> = entries.map(|entry| entry.unwrap().file_name().into_string().unwrap()).collect();
        names.sort();
        names
    }

    /// The arguments that ask for every output in this folder.
    pub fn all_outputs(&self) -> Vec<String> {
        OUTPUTS.iter().flat_map(|(option, name)| [option.to_string(), self.path(name)]).collect()
    }
}

impl Drop for Folder {
    fn drop(&mut self) {
        fs::remove_dir_all(&self.0).unwrap();
    }
}

/// The program with its arguments, its three streams piped.
pub fn program<A: AsRef<str>>(arguments: &[A]) -> Command {
    let mut command = Command::new(env!("CARGO_BIN_EXE_kohlenfloh"));
    command.args(arguments.iter().map(AsRef::as_ref));
    command.stdin(Stdio::piped()).stdout(Stdio::piped()).stderr(Stdio::piped());
    command
}

/// Runs the program on some input to its end.
pub fn run<A: AsRef<str>>(arguments: &[A], input: &[u8]) -> Output {
    let mut child = program(arguments).spawn().unwrap();
    let mut stdin = child.stdin.take().unwrap();
    std::thread::scope(|scope| {
        // A program that reads no input closes it, and that is no failure of the test.
        scope.spawn(move || stdin.write_all(input).is_ok());
        child.wait_with_output().unwrap()
    })
}

/// What the program printed on standard output.
pub fn printed(output: &Output) -> &str {
    std::str::from_utf8(&output.stdout).unwrap()
}

/// What the program said on standard error.
pub fn said(output: &Output) -> &str {
    std::str::from_utf8(&output.stderr).unwrap()
}

/// The lines of an order sheet that have a shade each.
pub fn shade_lines(sheet: &str) -> impl Iterator<Item = &str> {
    sheet.lines().skip_while(|line| !line.starts_with("shade ")).skip(1).take_while(|line| !line.is_empty())
}

/// The program tells in these words that its command line is wrong, and does nothing else.
pub fn assert_wrong(arguments: &[&str], words: &str) {
    let output = run(arguments, b"");
    assert_eq!((printed(&output), output.status.code()), ("", Some(64)), "{arguments:?}");
    let told = said(&output);
    assert!(told.starts_with(&format!("kohlenfloh: {words}\nusage: kohlenfloh shades K")), "{arguments:?} {told}");
}
