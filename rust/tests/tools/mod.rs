//! Running other programs, where they are installed.
use std::path::Path;
use std::process::{Command, Output, Stdio};

/// Whether every program of some pipelines is installed. Where one is not, a line says what is left out.
pub fn installed(pipelines: &[&str]) -> bool {
    let stages = pipelines.iter().flat_map(|pipeline| pipeline.split('|'));
    let missing = stages.filter_map(|stage| stage.split_whitespace().next()).find(|program| !found(program));
    if let Some(program) = missing {
        println!("{program} is not installed, so this is not tried: {}", pipelines.join("; "));
    }
    missing.is_none()
}

/// Whether a shell finds a program.
fn found(program: &str) -> bool {
    shell(Path::new("."), &format!("command -v {program}")).status.success()
}

/// Runs a command line in a folder, by a shell that finds the program that is tested.
pub fn shell(folder: &Path, line: &str) -> Output {
    let program = Path::new(env!("CARGO_BIN_EXE_kohlenfloh"));
    let mut path = program.parent().unwrap().as_os_str().to_owned();
    path.push(":");
    path.push(std::env::var_os("PATH").unwrap_or_default());
    let mut command = Command::new("sh");
    command.current_dir(folder).env("PATH", path).arg("-c").arg(line).stdin(Stdio::null());
    command.output().unwrap()
}
