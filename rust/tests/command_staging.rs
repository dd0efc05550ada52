//! The command between the writing of its files and their coming to their places: signals, failures, and files that are
//! left of another run.
mod program;

use std::fs::{self, File, Permissions};
use std::io;
use std::os::unix::fs::{MetadataExt, PermissionsExt};
use std::os::unix::process::ExitStatusExt;
use std::process::{Child, Command, ExitStatus, Stdio};
use std::thread::sleep;
use std::time::Duration;

use program::{printed, program, said, Folder, RUG};

/// The program's path.
const PROGRAM: &str = env!("CARGO_BIN_EXE_kohlenfloh");

/// Waits until something holds, for ten seconds at most.
fn wait_until(what: &str, mut holds: impl FnMut() -> bool) {
    for _ in 0..1000 {
        if holds() {
            return;
        }
        sleep(Duration::from_millis(10));
    }
    panic!("{what} does not come");
}

/// The names in a folder that begin with a point, as those of temporary files do.
fn temporaries(folder: &Folder) -> usize {
    folder.names().iter().filter(|name| name.starts_with('.')).count()
}

/// A folder with a former index picture and a pipe that nobody reads.
fn folder_with_pipe(name: &str) -> Folder {
    let folder = Folder::new(name);
    folder.write("index.pgm", b"former");
    assert!(Command::new("mkfifo").arg(folder.path("pipe")).status().unwrap().success());
    folder
}

/// A program that is ended with the test.
struct Running(Child);

impl Running {
    /// Starts the program in a folder, with signals set as `env` is told, and waits until its temporary files are
    /// there. It goes on when the pipe is read.
    fn start(folder: &Folder, signals: &str, outputs: &[&str]) -> Running {
        let mut command = Command::new("env");
        command.args([signals, PROGRAM, "shades", "6", RUG, "--sheet", "pipe"]).args(outputs);
        command.current_dir(folder.path("")).stdin(Stdio::null()).stdout(Stdio::null()).stderr(Stdio::piped());
        let running = Running(command.spawn().unwrap());
        wait_until("a temporary file", || temporaries(folder) == outputs.len() / 2);
        running
    }

    /// Sends a signal to the program.
    fn send(&self, signal: &str) {
        assert!(Command::new("kill").args(["-s", signal, &self.0.id().to_string()]).status().unwrap().success());
    }

    /// Waits for the program's end, and answers its status and what it said.
    fn end(mut self) -> (ExitStatus, String) {
        wait_until("the end", || self.0.try_wait().unwrap().is_some());
        (self.0.wait().unwrap(), io::read_to_string(self.0.stderr.take().unwrap()).unwrap())
    }
}

impl Drop for Running {
    fn drop(&mut self) {
        // One that has ended cannot be ended, and that is no failure of the test.
        let _ = self.0.kill();
        self.0.wait().unwrap();
    }
}

/// Reads the pipe of a folder.
fn read_pipe(folder: &Folder) -> Vec<u8> {
    Command::new("timeout").args(["10", "cat", &folder.path("pipe")]).output().unwrap().stdout
}

#[test]
fn a_signal_ends_the_program_and_leaves_no_trace() {
    for (signal, number) in [("HUP", 1), ("INT", 2), ("TERM", 15)] {
        let folder = folder_with_pipe("signal");
        let outputs = ["--index", "index.pgm", "--palette", "palette.ppm"];
        let running = Running::start(&folder, "--default-signal=HUP,INT,TERM", &outputs);
        running.send(signal);
        let (status, said) = running.end();
        assert_eq!((status.signal(), said.as_str()), (Some(number), ""));
        assert_eq!(folder.names(), ["index.pgm", "pipe"]);
        assert_eq!(folder.read("index.pgm"), b"former");
    }
}

#[test]
fn a_signal_that_is_ignored_stays_ignored() {
    let folder = folder_with_pipe("ignored");
    let running = Running::start(&folder, "--ignore-signal=INT", &["--index", "index.pgm"]);
    running.send("INT");
    assert!(read_pipe(&folder).starts_with(b"<svg"));
    let (status, said) = running.end();
    assert_eq!((status.code(), said.as_str()), (Some(0), ""));
    assert_eq!(folder.names(), ["index.pgm", "pipe"]);
    assert!(folder.read("index.pgm").starts_with(b"P5\n64 96\n255\n"));
}

#[test]
fn where_one_file_cannot_come_to_its_place_all_places_are_as_they_were() {
    let folder = folder_with_pipe("none");
    let index = folder.path("index.pgm");
    fs::set_permissions(&index, Permissions::from_mode(0o640)).unwrap();
    let former = fs::metadata(&index).unwrap();
    let outputs = ["--index", "index.pgm", "--palette", "palette.ppm", "--preview", "preview.ppm"];
    let running = Running::start(&folder, "--default-signal=INT", &outputs);
    fs::create_dir(folder.path("preview.ppm")).unwrap();
    folder.write("preview.ppm/file", b"somebody's");
    assert!(read_pipe(&folder).starts_with(b"<svg"));
    let (status, said) = running.end();
    assert_eq!(status.code(), Some(73));
    assert!(said.starts_with("kohlenfloh: cannot write preview.ppm: "), "{said}");
    assert_eq!(folder.names(), ["index.pgm", "pipe", "preview.ppm"]);
    assert_eq!((folder.read("index.pgm"), folder.read("preview.ppm/file")), (b"former".into(), b"somebody's".into()));
    let kept = fs::metadata(&index).unwrap();
    assert_eq!((kept.ino(), kept.mode(), kept.nlink()), (former.ino(), former.mode(), 1));
}

#[test]
fn where_a_stream_fails_no_file_comes_to_its_place() {
    let folder = Folder::new("stream");
    folder.write("index.pgm", b"former");
    let outputs = ["shades", "6", RUG, "--index", "index.pgm", "--sheet", "sheet.svg"];
    let full = || File::options().write(true).open("/dev/full").unwrap();
    let mut to_device = program(&outputs);
    to_device.args(["--palette", "/dev/full"]);
    let mut to_standard_output = program(&outputs);
    to_standard_output.stdout(full());
    let mut alone = program(&outputs);
    alone.args(["--json", "-"]).stdout(full());
    let told = ["/dev/full", "standard output", "standard output"];
    for (mut command, path) in [to_device, to_standard_output, alone].into_iter().zip(told) {
        let output = command.current_dir(folder.path("")).stdin(Stdio::null()).output().unwrap();
        assert_eq!((printed(&output), output.status.code()), ("", Some(73)));
        let words = format!("kohlenfloh: cannot write {path}: No space left");
        assert!(said(&output).starts_with(&words), "{}", said(&output));
        assert_eq!(folder.names(), ["index.pgm"]);
        assert!(folder.read("index.pgm") == b"former");
    }
}

#[test]
fn files_that_are_left_of_another_run_do_not_block() {
    let folder = Folder::new("left");
    let left =
        "for name in .index.pgm.$$ .kohlenfloh.$$.0 .kohlenfloh.$$.1; do echo left > $name; done; exec \"$0\" \"$@\"";
    let mut command = Command::new("sh");
    command.args(["-c", left, PROGRAM, "shades", "6", RUG, "--index", "index.pgm", "--sheet", "sheet.svg"]);
    let output = command.current_dir(folder.path("")).stdin(Stdio::null()).output().unwrap();
    assert_eq!((said(&output), output.status.code()), ("", Some(0)));
    assert!(folder.read("index.pgm").starts_with(b"P5\n64 96\n255\n"));
    assert!(folder.read("sheet.svg").starts_with(b"<svg"));
    assert_eq!(temporaries(&folder), 3);
    assert!(folder.names().iter().filter(|name| name.starts_with('.')).all(|name| folder.read(name) == b"left\n"));
}
