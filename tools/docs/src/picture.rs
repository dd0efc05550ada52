//! The picture of the layers, in plain text.
//!
//! The floors stand one on the other, the ground lowest, each under a line with its heading and the floors that its
//! crates use. Within a floor a crate uses crates of lower rows only; a row that is too wide goes on further in.
use crate::floors::{Crate, Floor};

/// The columns of the picture.
const WIDTH: usize = 110;

/// What is between two names of a row.
const GAP: &str = "   ";

/// The picture of these floors, which come from the ground up.
pub fn draw(floors: &[Floor]) -> Result<String, String> {
    let mut lines = Vec::new();
    for (place, floor) in floors.iter().enumerate().rev() {
        lines.push(edge(&floor.heading(), &beneath(floor, &floors[..place]))?);
        for row in rows(floor).iter().rev() {
            lines.extend(wrapped(row).iter().map(|text| format!("| {text:<inner$} |", inner = WIDTH - 4)));
        }
    }
    lines.push(format!("+{}+", "-".repeat(WIDTH - 2)));
    Ok(lines.iter().map(|line| line.clone() + "\n").collect())
}

/// The names of the floors that a floor's crates use, from the highest down.
fn beneath<'a>(floor: &Floor, lower: &'a [Floor]) -> Vec<&'a str> {
    let uses = |lower: &&Floor| floor.crates.iter().any(|user| user.uses.iter().any(|used| lower.has(used)));
    lower.iter().rev().filter(uses).map(|lower| lower.name.as_str()).collect()
}

/// The line above a floor.
fn edge(heading: &str, beneath: &[&str]) -> Result<String, String> {
    let left = format!("+-- {heading} ");
    let right = if beneath.is_empty() { "+".to_string() } else { format!(" on {} --+", beneath.join(", ")) };
    let taken = left.chars().count() + right.chars().count();
    match WIDTH.checked_sub(taken + 1) {
        Some(free) => Ok(format!("{left}{}{right}", "-".repeat(free + 1))),
        None => Err(format!("{heading}: the heading is {} columns too long for the picture", taken + 1 - WIDTH)),
    }
}

/// The crates of a floor by how many of the floor stand one on the other beneath them.
fn rows(floor: &Floor) -> Vec<Vec<&str>> {
    let mut rows: Vec<Vec<&str>> = Vec::new();
    for found in &floor.crates {
        let height = height(&rows, found);
        if height == rows.len() {
            rows.push(Vec::new());
        }
        rows[height].push(&found.name);
    }
    rows
}

/// The row of a crate: the first above every row that has a crate it uses.
fn height(rows: &[Vec<&str>], found: &Crate) -> usize {
    let uses = |row: &Vec<&str>| row.iter().any(|name| found.uses.iter().any(|used| used == name));
    rows.iter().rposition(uses).map_or(0, |row| row + 1)
}

/// A row's names, on as many lines as they need.
fn wrapped(names: &[&str]) -> Vec<String> {
    let mut lines: Vec<String> = Vec::new();
    for name in names {
        match lines.last_mut() {
            Some(line) if line.len() + GAP.len() + name.len() <= WIDTH - 4 => *line += &format!("{GAP}{name}"),
            Some(_) => lines.push(format!("  {GAP}{name}")),
            None => lines.push(format!("  {name}")),
        }
    }
    lines
}

#[cfg(test)]
mod tests {
    use super::*;
    use crate::floors::read;

    #[test]
    fn floors_stand_one_on_the_other() {
        let ground = "# ---- ground: numbers\nnumber:\ncolour: number\nbits: number\n";
        let above = "# ---- table: colours\ntable: colour\n# ---- out: programs\nmain: number table\n";
        let drawn = draw(&read(&[ground, above].concat()).unwrap()).unwrap();
        let lines: Vec<&str> = drawn.lines().collect();
        assert!(lines.iter().all(|line| line.chars().count() == WIDTH), "{drawn}");
        let start: Vec<&str> = lines.iter().map(|line| line[..24].trim_end_matches('-').trim_end()).collect();
        let names = ["+-- out: programs", "|   main", "+-- table: colours", "|   table"];
        assert_eq!(start[..4], names);
        assert_eq!(start[4..], ["+-- ground: numbers", "|   colour   bits", "|   number", "+"]);
        assert!(lines[0].ends_with("- on table, ground --+") && lines[2].ends_with("- on ground --+"));
        assert!(lines[4].ends_with("----+"));
    }

    #[test]
    fn a_wide_row_goes_on_further_in() {
        let names: Vec<String> = (10..40).map(|number| format!("crate_{number}:\n")).collect();
        let drawn = draw(&read(&format!("# ---- ground: many\n{}", names.concat())).unwrap()).unwrap();
        assert!(drawn.lines().all(|line| line.chars().count() == WIDTH), "{drawn}");
        assert!(drawn.lines().count() > 3 && drawn.lines().nth(2).unwrap().starts_with("|      crate_"), "{drawn}");
        assert!((10..40).all(|number| drawn.matches(&format!("crate_{number}")).count() == 1), "{drawn}");
    }

    #[test]
    fn a_heading_fits_or_is_refused() {
        let floors = |length| read(&format!("# ---- ground: {}\nnumber:\n", "w".repeat(length))).unwrap();
        let drawn = draw(&floors(95)).unwrap();
        assert!(drawn.lines().all(|line| line.chars().count() == WIDTH), "{drawn}");
        let told = format!("ground: {}: the heading is 1 columns too long for the picture", "w".repeat(96));
        assert_eq!(draw(&floors(96)), Err(told));
    }
}
