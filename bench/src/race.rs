//! Forms of one job timed in turn, A B A B, each by its best time; and the table of what was seen.
use std::hint::black_box;
use std::time::Instant;

/// How long each race goes on.
#[derive(Clone, Copy)]
pub struct Pace {
    pub seconds: f64,
    pub least: usize,
}

/// A form: it does the job once and answers the seconds that took, and the job's answer.
pub type Form<'a, A> = &'a mut dyn FnMut() -> (f64, A);

/// The seconds a job takes, and what it gives.
pub fn timed<R>(job: impl FnOnce() -> R) -> (f64, R) {
    let start = Instant::now();
    let given = black_box(job());
    (start.elapsed().as_secs_f64(), given)
}

/// The best time of each form. Every answer is compared with the first form's; a wrong one ends the program.
pub fn race<A: PartialEq>(pace: Pace, job: &str, forms: &mut [Form<A>]) -> Vec<f64> {
    let wanted = forms[0]().1;
    for (number, form) in forms.iter_mut().enumerate().skip(1) {
        if form().1 != wanted {
            eprintln!("bench: {job}: form {number} gives another answer than the proved library");
            std::process::exit(1);
        }
    }
    let mut best = vec![f64::MAX; forms.len()];
    let start = Instant::now();
    let mut turns = 0;
    while turns < pace.least || start.elapsed().as_secs_f64() < pace.seconds {
        for (best, form) in best.iter_mut().zip(forms.iter_mut()) {
            let (seconds, answer) = form();
            assert!(answer == wanted, "{job}: a form gives two answers");
            *best = best.min(seconds);
        }
        turns += 1;
    }
    best
}

/// Prints a row: job, picture, unit; the proved library; the usual form in Rust, with the ratio; and, where another
/// form is quicker, that one with its ratio and name; all in nanoseconds a unit.
pub fn row(job: &str, picture: &str, unit: (&str, f64), times: &[f64], other: &str) {
    let each: Vec<f64> = times.iter().map(|time| time * 1e9 / unit.1).collect();
    let best = match each.get(2) {
        Some(time) if *time < each[1] => format!("{} | {:.2} | {other}", figure(*time), each[0] / time),
        _ => format!("{} | {:.2} | the same", figure(each[1]), each[0] / each[1]),
    };
    let ratio = each[0] / each[1];
    println!("| {job} | {picture} | {} | {} | {} | {ratio:.2} | {best} |", unit.0, figure(each[0]), figure(each[1]));
}

/// A figure with three digits that count.
pub fn figure(value: f64) -> String {
    match value {
        value if value < 10.0 => format!("{value:.2}"),
        value if value < 100.0 => format!("{value:.1}"),
        _ => format!("{value:.0}"),
    }
}
