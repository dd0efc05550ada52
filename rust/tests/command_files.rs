//! The command on files that are somebody's: nothing is overwritten that is not meant.
mod program;

use std::fs::{self, File, Permissions};
use std::os::unix::fs::{symlink, PermissionsExt};
use std::process::{Output, Stdio};

use program::{printed, program, said, Folder, RUG};

/// What is no picture: where it is read, it is refused by another status.
const NO_PICTURE: &[u8] = b"no picture";

/// A folder with a file that is called a picture and is none, and a folder in it.
fn folder_with_picture(name: &str) -> Folder {
    let folder = Folder::new(name);
    folder.write("rug.ppm", NO_PICTURE);
    fs::create_dir(folder.path("a")).unwrap();
    folder
}

/// Runs the program in a folder, on a file of it as standard input where one is named.
fn run_in(folder: &Folder, arguments: &[&str], input: Option<&str>) -> Output {
    let input = input.map_or(Stdio::null(), |name| File::open(folder.path(name)).unwrap().into());
    program(arguments).current_dir(folder.path("")).stdin(input).output().unwrap()
}

/// The program is run in a folder, and tells of a wrong command line.
fn assert_refused(folder: &Folder, arguments: &[&str], input: Option<&str>, words: &str) {
    let names = folder.names();
    let output = run_in(folder, arguments, input);
    assert_eq!((printed(&output), output.status.code()), ("", Some(64)), "{arguments:?} {}", said(&output));
    let told = said(&output);
    assert!(told.starts_with(&format!("kohlenfloh: {words}\nusage: kohlenfloh shades K")), "{arguments:?} {told}");
    assert_eq!((folder.names(), folder.read("rug.ppm")), (names, NO_PICTURE.to_vec()), "{arguments:?}");
}

#[test]
fn an_output_that_is_the_picture_is_refused_before_it_is_read() {
    let folder = folder_with_picture("picture");
    symlink("rug.ppm", folder.path("symbolic.ppm")).unwrap();
    fs::hard_link(folder.path("rug.ppm"), folder.path("hard.ppm")).unwrap();
    let absolute = folder.path("rug.ppm");
    for other in ["rug.ppm", "./rug.ppm", "a/../rug.ppm", &absolute, "symbolic.ppm", "hard.ppm"] {
        for option in ["--index", "--palette", "--preview", "--sheet", "--csv", "--json"] {
            let words = format!("{option} would overwrite the picture rug.ppm");
            assert_refused(&folder, &["shades", "6", "rug.ppm", option, other], None, &words);
            let words = format!("{option} would overwrite the picture {other}");
            assert_refused(&folder, &["shades", "6", other, option, "rug.ppm"], None, &words);
            assert_refused(&folder, &["shades", "6", option, other], Some("rug.ppm"), &words);
        }
    }
    let words = "--preview would overwrite the picture none.ppm";
    assert_refused(&folder, &["shades", "6", "none.ppm", "--preview", "a/../none.ppm"], None, words);
}

#[test]
fn standard_output_that_is_the_picture_is_refused() {
    let folder = folder_with_picture("append");
    let to_picture = |arguments: &[&str]| {
        let out = File::options().append(true).open(folder.path("rug.ppm")).unwrap();
        program(arguments).current_dir(folder.path("")).stdin(Stdio::null()).stdout(out).output().unwrap()
    };
    for (arguments, words) in [
        (["shades", "6", "rug.ppm"].as_slice(), "the order sheet would overwrite the picture rug.ppm"),
        (&["shades", "6", "rug.ppm", "--csv", "-"], "--csv would overwrite the picture rug.ppm"),
    ] {
        let output = to_picture(arguments);
        assert_eq!(output.status.code(), Some(64));
        assert!(said(&output).starts_with(&format!("kohlenfloh: {words}\n")), "{}", said(&output));
        assert_eq!(folder.read("rug.ppm"), NO_PICTURE);
    }
    let output = to_picture(&["shades", "6", RUG, "--csv", "./rug.ppm"]);
    assert!(said(&output).starts_with("kohlenfloh: two outputs cannot both be ./rug.ppm\n"), "{}", said(&output));
}

#[test]
fn a_device_may_be_both_picture_and_output() {
    let null = || File::options().read(true).write(true).open("/dev/null").unwrap();
    for arguments in [["shades", "6", "-"], ["shades", "6", "/dev/null"]] {
        let mut command = program(&arguments);
        let output = command.args(["--index", "/dev/null"]).stdin(null()).stdout(null()).output().unwrap();
        assert_eq!(output.status.code(), Some(12), "{}", said(&output));
    }
}

#[test]
fn two_outputs_in_one_file_are_refused_however_they_are_spelled() {
    let folder = folder_with_picture("two");
    folder.write("x", b"former");
    symlink("x", folder.path("link")).unwrap();
    fs::hard_link(folder.path("x"), folder.path("hard")).unwrap();
    symlink("a/none", folder.path("dangling")).unwrap();
    symlink("a", folder.path("b")).unwrap();
    let absolute = folder.path("x");
    for (one, other) in [
        ("x", "./x"),
        ("x", "a/../x"),
        ("x", &absolute),
        ("x", "link"),
        ("link", "x"),
        ("hard", "link"),
        ("a/y", "b/y"),
        ("a/none", "dangling"),
        ("./dangling", "b/none"),
    ] {
        let words = format!("two outputs cannot both be {other}");
        assert_refused(&folder, &["shades", "6", "rug.ppm", "--index", one, "--sheet", other], None, &words);
    }
    assert_eq!(folder.read("x"), b"former");
}

#[test]
fn an_output_that_cannot_be_written_is_refused_before_the_picture_is_read() {
    let folder = folder_with_picture("kept");
    let index = folder.write("index.pgm", b"former");
    symlink("index.pgm", folder.path("link.pgm")).unwrap();
    fs::set_permissions(&index, Permissions::from_mode(0o444)).unwrap();
    for path in ["index.pgm", "link.pgm", "a", "a/none/index.pgm", "none/"] {
        let output = run_in(&folder, &["shades", "6", "rug.ppm", "--sheet", "sheet.svg", "--index", path], None);
        assert_eq!((printed(&output), output.status.code()), ("", Some(73)), "{path} {}", said(&output));
        assert!(said(&output).starts_with(&format!("kohlenfloh: cannot write {path}: ")), "{}", said(&output));
        assert_eq!(folder.names(), ["a", "index.pgm", "link.pgm", "rug.ppm"]);
        assert_eq!(folder.read("index.pgm"), b"former");
        assert_eq!(fs::metadata(&index).unwrap().permissions().mode() & 0o777, 0o444);
    }
}

#[test]
fn a_link_to_nothing_stays_and_what_it_leads_to_is_made() {
    let folder = folder_with_picture("dangling");
    symlink("second", folder.path("first")).unwrap();
    symlink("a/index.pgm", folder.path("second")).unwrap();
    let output = run_in(&folder, &["shades", "6", RUG, "--index", "first"], None);
    assert_eq!((said(&output), output.status.code()), ("", Some(0)));
    assert_eq!(fs::read_link(folder.path("first")).unwrap().to_str(), Some("second"));
    assert_eq!(fs::read_link(folder.path("second")).unwrap().to_str(), Some("a/index.pgm"));
    assert!(folder.read("a/index.pgm").starts_with(b"P5\n64 96\n255\n"));
    assert_eq!(fs::read_dir(folder.path("a")).unwrap().count(), 1);
    assert_eq!(folder.names(), ["a", "first", "rug.ppm", "second"]);

    symlink("round", folder.path("round")).unwrap();
    let output = run_in(&folder, &["shades", "6", "rug.ppm", "--index", "round"], None);
    assert_eq!(output.status.code(), Some(73), "{}", said(&output));
}

#[test]
fn a_name_of_the_greatest_length_is_written() {
    let folder = Folder::new("long");
    let name = "x".repeat(255);
    let output = run_in(&folder, &["shades", "6", RUG, "--index", &name], None);
    assert_eq!((said(&output), output.status.code()), ("", Some(0)));
    assert_eq!(folder.names(), [name]);
}
