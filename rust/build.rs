// Has the proved library built, and links it.
//
// tools/library proves it and compiles it for the processor at hand, below the folder that cargo gives to this script;
// nothing is written beside the sources. KOHLENFLOH_ARCHIVE names a folder that tools/library filled, or `make install`
// (its lib/); what it holds is used as it is.
use std::env;
use std::fs;
use std::io::IsTerminal;
use std::path::{Path, PathBuf};
use std::process::Command;

/// The archive's name.
const ARCHIVE: &str = "libkohlenfloh.a";

/// The file beside the archive that tells what made it, a line `name: value` each.
const MADE: &str = "libkohlenfloh.made";

fn main() {
    println!("cargo:rerun-if-env-changed=KOHLENFLOH_ARCHIVE");
    let out = PathBuf::from(env::var_os("OUT_DIR").expect("cargo names a folder for what is built"));
    let built = out.join("library");
    match env::var_os("KOHLENFLOH_ARCHIVE") {
        Some(folder) => take(Path::new(&folder), &built),
        None => build(&built),
    }
    println!("cargo:rustc-link-search=native={}", built.display());
    println!("cargo:rustc-link-lib=static=kohlenfloh");
    tell_what_made(&built);
}

/// Takes an archive that was made before, again when it changes. It is copied, so that whoever clears its folder takes
/// nothing away from here.
fn take(folder: &Path, built: &Path) {
    fs::create_dir_all(built).unwrap_or_else(|why| panic!("cannot make {}: {why}", built.display()));
    for name in [ARCHIVE, MADE] {
        let from = folder.join(name);
        println!("cargo:rerun-if-changed={}", from.display());
        if let Err(why) = fs::copy(&from, built.join(name)) {
            fail(&format!("cannot copy {}, in the folder that KOHLENFLOH_ARCHIVE names: {why}", from.display()));
        }
    }
}

/// Builds the library from the sources beside this crate, again when they change. What is built is none of those: it is
/// later than the start of the build that makes it, and would have it made at every use.
fn build(built: &Path) {
    let here = PathBuf::from(env::var_os("CARGO_MANIFEST_DIR").expect("cargo names the crate's folder"));
    let top = here.parent().expect("the crate stands in the repository");
    let processor = |name: &str| env::var(name).ok().and_then(|triple| triple.split('-').next().map(String::from));
    if processor("TARGET") != processor("HOST") {
        fail("the library is built for the processor at hand; KOHLENFLOH_ARCHIVE can name one for another");
    }
    for source in ["crates.txt", "Cargo.toml", "tools/library", "tools/below"] {
        println!("cargo:rerun-if-changed={}", top.join(source).display());
    }
    // Not the crates' whole folders: in out/ stands what rt keeps there.
    for name in crates_below(top) {
        let folder = top.join("crates").join(name);
        for part in ["src", "specs", "proofs"].map(|part| folder.join(part)).iter().filter(|part| part.exists()) {
            println!("cargo:rerun-if-changed={}", part.display());
        }
    }
    let mut command = Command::new(top.join("tools/library"));
    command.arg(built);
    if let Some(terminal) = terminal() {
        command.env("KOHLENFLOH_TERMINAL", terminal);
    }
    match command.output() {
        Ok(done) if done.status.success() => {}
        Ok(done) => fail(&String::from_utf8_lossy(&[done.stdout, done.stderr].concat())),
        Err(why) => fail(&format!("{command:?} could not be started: {why}")),
    }
}

/// The crates that the library is made of, by their names.
fn crates_below(top: &Path) -> Vec<String> {
    let below = Command::new(top.join("tools/below")).arg("kohlenfloh_c").current_dir(top).output();
    let said = match below {
        Ok(done) if done.status.success() => String::from_utf8_lossy(&done.stdout).into_owned(),
        other => fail(&format!("tools/below could not tell what the library is made of: {other:?}")),
    };
    // A line is `HEIGHT NAME ..: ..`.
    let name = |line: &str| line.split([' ', ':']).nth(1).map(String::from);
    said.lines().filter_map(name).collect()
}

/// The terminal on which a person sees what cargo says, if it is one: cargo itself keeps what this script prints.
fn terminal() -> Option<PathBuf> {
    let path = PathBuf::from(format!("/proc/{}/fd/2", std::os::unix::process::parent_id()));
    let terminal = fs::OpenOptions::new().append(true).open(&path).ok()?;
    terminal.is_terminal().then_some(path)
}

/// Hands what made the library to the crate, which says it of itself.
fn tell_what_made(built: &Path) {
    let made = fs::read_to_string(built.join(MADE)).unwrap_or_else(|why| panic!("cannot read {MADE}: {why}"));
    for name in ["toolchain", "proof", "sources"] {
        let value = made.lines().find_map(|line| line.strip_prefix(name)?.strip_prefix(": "));
        let value = value.unwrap_or_else(|| panic!("{MADE} does not tell the {name}"));
        println!("cargo:rustc-env=KOHLENFLOH_{}={value}", name.to_uppercase());
    }
}

/// Ends the build with what went wrong, and nothing around it.
fn fail(why: &str) -> ! {
    eprintln!("{}", why.trim_end());
    std::process::exit(1)
}
