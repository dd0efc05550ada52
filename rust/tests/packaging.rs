//! The man page and the completions, held against what the command tells of itself.
mod program;

use program::{printed, run};

/// The man page.
const MAN: &str = include_str!("../../packaging/kohlenfloh.1");

/// The completions.
const COMPLETIONS: &str = include_str!("../../packaging/kohlenfloh.bash");

/// What --help answers.
fn help() -> String {
    printed(&run(&["--help"], b"")).into()
}

/// The part of a text between two lines.
fn part<'a>(text: &'a str, from: &str, to: &str) -> &'a str {
    text.split_once(&format!("{from}\n")).unwrap().1.split_once(&format!("\n{to}\n")).unwrap().0
}

/// Every long option that --help lists.
fn options(help: &str) -> Vec<&str> {
    let lines = help.lines().filter_map(|line| line.strip_prefix("  --"));
    lines.map(|line| line.split([' ', ',']).next().unwrap()).collect()
}

#[test]
fn the_man_page_and_the_completions_have_every_option() {
    let help = help();
    let options = options(&help);
    assert!(options.len() >= 9, "{options:?}");
    let page = part(MAN, ".SH OPTIONS", ".SH FILES");
    let heads: Vec<String> = page
        .split(".TP\n")
        .skip(1)
        .map(|entry| entry.lines().next().unwrap().replace('\\', ""))
        .map(|head| head.split([' ', ',']).find_map(|word| word.strip_prefix("--")).unwrap().into())
        .collect();
    let mut sorted = [options.clone(), heads.iter().map(String::as_str).collect()];
    sorted.iter_mut().for_each(|names| names.sort_unstable());
    assert_eq!(sorted[0], sorted[1]);
    for option in options {
        assert!(
            COMPLETIONS.split_whitespace().any(|word| word.trim_matches('\'') == format!("--{option}")),
            "{option}"
        );
    }
}

#[test]
fn the_man_page_has_every_exit_status() {
    let help = help();
    let words = part(&help, "Exit status", "Examples").lines().filter_map(|line| line.split_whitespace().next());
    let told: Vec<&str> = words.filter(|word| word.bytes().all(|byte| byte.is_ascii_digit())).collect();
    let page = part(MAN, ".SH EXIT STATUS", ".SH EXAMPLES");
    let page: Vec<&str> = page.split(".TP\n.B ").skip(1).map(|entry| entry.lines().next().unwrap()).collect();
    assert_eq!(page, told);
}

#[test]
fn the_man_page_tells_the_version() {
    assert!(MAN.starts_with(&format!(".TH KOHLENFLOH 1 \"\" \"kohlenfloh {}\"", env!("CARGO_PKG_VERSION"))));
}
