//! `docs`: the picture of the layers, and what the documents say held against the crates.
//!
//! `docs layers` prints the picture that crates.txt gives; `docs write` writes it into README.md; `docs check` says
//! every fault of README.md and docs/PROMISES.md in one line, ends with `N passed, M failed`, and its status is 1 where
//! one failed. The project is the folder above the current one, or the current one, that has a crates.txt.
use std::path::{Path, PathBuf};
use std::process::ExitCode;
use std::{env, fs};

use docs::tree::Tree;
use docs::{check, floors, picture, readme};

const USAGE: &str = "usage: docs layers | docs write | docs check";

/// The project's top folder.
fn top() -> Result<PathBuf, String> {
    let here = env::current_dir().map_err(|why| format!("no current folder: {why}"))?;
    let has_list = |folder: &&Path| folder.join(floors::FILE).is_file();
    let top = here.ancestors().find(has_list);
    top.map(Path::to_path_buf).ok_or_else(|| format!("no {} in this folder or above it", floors::FILE))
}

/// The picture of the crates in this tree.
fn drawn(tree: &Tree) -> Result<String, String> {
    let floors = floors::read(tree.text(floors::FILE)?).map_err(|faults| faults.join("\n"))?;
    picture::draw(&floors)
}

/// Writes the picture into README.md.
fn write(top: &Path, tree: &Tree) -> Result<(), String> {
    let with = readme::with_picture(tree.text(readme::FILE)?, &drawn(tree)?)?;
    fs::write(top.join(readme::FILE), with).map_err(|why| format!("{}: {why}", readme::FILE))
}

/// Prints what each check finds; whether all passed.
fn tell(checks: &[check::Check]) -> bool {
    for check in checks {
        check.faults.iter().for_each(|fault| println!("{fault}"));
        println!("docs: {} ({}): {}", check.name, check.looked_at, if check.passed() { "passed" } else { "FAILED" });
    }
    let passed = checks.iter().filter(|check| check.passed()).count();
    println!("{passed} passed, {} failed", checks.len() - passed);
    passed == checks.len()
}

fn main() -> ExitCode {
    let words: Vec<String> = env::args().skip(1).collect();
    let [word] = &words[..] else {
        eprintln!("{USAGE}");
        return ExitCode::from(2);
    };
    let told = top().and_then(|top| {
        let tree = Tree::read(&top)?;
        match word.as_str() {
            "layers" => drawn(&tree).map(|picture| print!("{picture}")).map(|()| true),
            "write" => write(&top, &tree).map(|()| true),
            "check" => Ok(tell(&check::all(&tree))),
            _ => Err(USAGE.to_string()),
        }
    });
    match told {
        Ok(passed) => ExitCode::from(u8::from(!passed)),
        Err(why) => {
            eprintln!("docs: {why}");
            ExitCode::from(2)
        }
    }
}
