//! `compare`: the library held against the model, subject by subject. `compare --help` tells how it is asked.
use std::process::ExitCode;
use std::time::Instant;
use std::{env, fmt::Write, thread};

use compare::bench::Bench;
use compare::subjects::{Failure, Subject, SUBJECTS};

const USUAL_SEED: u64 = 20_240_607;

/// What --help answers before the subjects.
const HELP: &str = "\
compare - the proved library held against a plain model of its scope

usage: compare [--seed N] [--from CASE] [--cases M] [--edges] [SUBJECT..]

Makes random and damaged inputs, asks library and model, and compares every
answer and every byte of every lent slice. Prints a line for each subject and
ends with `N passed, M failed`; the exit status is 0 where none failed.

  --seed N      the cases of this seed; without it those of the usual seed, and
                those of the variable COMPARE_SEED too where it is set
  --from CASE   begins with this case
  --cases M     so many cases of each subject; fewer than usual are not asked to
                meet every edge case
  --edges       lists how often each edge case was met
  --help        this text

A failed case is repeated by its seed, --from its number and --cases 1.

Subjects, all of them where none is named, each with its usual cases:
";

/// What the command line asks for.
#[derive(Default)]
struct Asked {
    help: bool,
    seeds: Vec<u64>,
    from: u64,
    cases: Option<u64>,
    edges: bool,
    subjects: Vec<String>,
}

/// The number after a flag.
fn number(flag: &str, next: Option<String>) -> Result<u64, String> {
    let next = next.ok_or(format!("{flag} needs a number"))?;
    next.parse().map_err(|_| format!("{flag}: {next} is no number"))
}

/// Reads the command line.
fn asked() -> Result<Asked, String> {
    let mut asked = Asked::default();
    let mut words = env::args().skip(1);
    while let Some(word) = words.next() {
        match word.as_str() {
            "--seed" => asked.seeds.push(number(&word, words.next())?),
            "--from" => asked.from = number(&word, words.next())?,
            "--cases" => asked.cases = Some(number(&word, words.next())?),
            "--edges" => asked.edges = true,
            "--help" | "-h" => asked.help = true,
            name if SUBJECTS.iter().any(|subject| subject.name == name) => asked.subjects.push(word),
            _ => return Err(format!("{word} is neither a flag nor a subject; --help lists both")),
        }
    }
    if asked.seeds.is_empty() {
        asked.seeds.push(USUAL_SEED);
        if let Ok(seed) = env::var("COMPARE_SEED") {
            asked.seeds.push(number("COMPARE_SEED", Some(seed))?);
        }
    }
    Ok(asked)
}

/// A subject compared: what its cases came to, and how long they took.
struct Compared {
    subject: &'static Subject,
    bench: Bench,
    result: Result<(), Failure>,
    seconds: f64,
}

/// Compares these subjects beside each other, each on a thread of its own; they come out in their order.
fn compare_all(subjects: impl Iterator<Item = &'static Subject>, seed: u64, asked: &Asked) -> Vec<Compared> {
    let compare = |subject: &'static Subject| {
        let begun = Instant::now();
        let cases = if subject.cases == 1 { 1 } else { asked.cases.unwrap_or(subject.cases) };
        let (bench, result) = subject.compare(None, seed, asked.from, cases);
        Compared { subject, bench, result, seconds: begun.elapsed().as_secs_f64() }
    };
    thread::scope(|scope| {
        let begun: Vec<_> = subjects.map(|subject| scope.spawn(move || compare(subject))).collect();
        begun.into_iter().map(|thread| thread.join().expect("a comparison does not panic")).collect()
    })
}

/// A subject's line: name, seed, calls compared, refusals met with their numbers, seconds beside the other subjects.
fn line(compared: &Compared, seed: u64) -> String {
    let Compared { subject, bench, seconds, .. } = compared;
    let refused: u64 = bench.refusals.values().sum();
    let mut line = format!("{} seed {seed} calls {} refused {refused} (", subject.name, bench.calls);
    for (place, (number, times)) in bench.refusals.iter().enumerate() {
        let blank = if place == 0 { "" } else { " " };
        let _ = write!(line, "{blank}{number}:{times}");
    }
    let _ = write!(line, ") seconds {seconds:.1}");
    line
}

/// What a failed subject says beside its line.
fn told(failure: &Failure) -> String {
    let case = failure.case.map_or(String::new(), |case| format!("case {case}: "));
    let asked = failure.asked.as_ref().map_or(String::new(), |asked| format!("\n  asked: {asked}"));
    format!("  FAILED {case}{}{asked}", failure.what)
}

fn main() -> ExitCode {
    let asked = match asked() {
        Ok(asked) => asked,
        Err(why) => {
            eprintln!("compare: {why}");
            return ExitCode::from(64);
        }
    };
    if asked.help {
        print!("{HELP}");
        SUBJECTS.iter().for_each(|subject| println!("  {:<12} {:>7}", subject.name, subject.cases));
        return ExitCode::SUCCESS;
    }
    let named =
        |subject: &&Subject| asked.subjects.is_empty() || asked.subjects.iter().any(|name| name == subject.name);
    let (mut passed, mut failed) = (0, 0);
    for &seed in &asked.seeds {
        for compared in compare_all(SUBJECTS.iter().filter(named), seed, &asked) {
            println!("{}", line(&compared, seed));
            if asked.edges {
                compared.bench.model.met.iter().for_each(|(what, times)| println!("  {what}: {times}"));
            }
            match compared.result {
                Ok(()) => passed += 1,
                Err(failure) => {
                    println!("{}", told(&failure));
                    failed += 1;
                }
            }
        }
    }
    println!("{passed} passed, {failed} failed");
    ExitCode::from(u8::from(failed > 0))
}
