//! crates.txt: the crates, floor by floor from the ground up.
//!
//! A line `# ---- FLOOR: WORDS` opens a floor; the lines `CRATE: CRATE ..` behind it are its crates, with the crates
//! that each uses. Behind a crate's name there may stand `staticlib`. `#` begins a comment elsewhere. A crate uses crates on lines above its own, so of its own floor or
//! of a lower one, and libraries of the toolchain.
use std::collections::BTreeMap;

/// The file's path.
pub const FILE: &str = "crates.txt";

/// What opens the line of a floor.
const OPENS: &str = "# ---- ";

/// What stands behind the name of a static library.
const STATIC: &str = " staticlib";

/// The toolchain's libraries.
const LIBRARIES: [&str; 5] = ["check", "io", "libc", "os", "std"];

/// A floor: its name, what it is for, and its crates in their order.
#[derive(Debug, PartialEq)]
pub struct Floor {
    pub name: String,
    pub words: String,
    pub crates: Vec<Crate>,
}

/// A crate, and the crates that it uses.
#[derive(Debug, PartialEq)]
pub struct Crate {
    pub name: String,
    pub uses: Vec<String>,
}

impl Floor {
    /// The floor's heading: its name and what it is for.
    pub fn heading(&self) -> String {
        format!("{}: {}", self.name, self.words)
    }

    /// Whether a crate stands on this floor.
    pub fn has(&self, name: &str) -> bool {
        self.crates.iter().any(|found| found.name == name)
    }
}

/// The crates of all floors, in their order.
pub fn crates(floors: &[Floor]) -> impl Iterator<Item = &Crate> {
    floors.iter().flat_map(|floor| &floor.crates)
}

/// The floors that crates.txt lists, or its faults.
pub fn read(text: &str) -> Result<Vec<Floor>, Vec<String>> {
    let mut list = List::default();
    for (line, text) in (1..).zip(text.lines()) {
        if let Err(what) = list.take(line, text) {
            list.faults.push(format!("{FILE}:{line}: {what}"));
        }
    }
    for (place, floor) in list.floors.iter().enumerate() {
        if floor.crates.is_empty() {
            list.faults.push(format!("{FILE}: floor {} has no crate", floor.name));
        }
        let misuses = floor.crates.iter().flat_map(|user| misuses(&list.lines, floor, &list.floors[place + 1..], user));
        list.faults.extend(misuses);
    }
    if list.faults.is_empty() {
        Ok(list.floors)
    } else {
        Err(list.faults)
    }
}

/// What is read of the list: its floors, each crate's line, its faults.
#[derive(Default)]
struct List {
    floors: Vec<Floor>,
    lines: BTreeMap<String, usize>,
    faults: Vec<String>,
}

impl List {
    /// Takes a line in, or says what is wrong with it.
    fn take(&mut self, line: usize, text: &str) -> Result<(), String> {
        if let Some(heading) = text.strip_prefix(OPENS) {
            return self.open(heading);
        }
        let text = text.split('#').next().unwrap_or_default().trim();
        if text.is_empty() {
            return Ok(());
        }
        let (name, uses) = text.split_once(':').ok_or("a crate's line is `CRATE: CRATE ..`")?;
        let name = name.trim().strip_suffix(STATIC).unwrap_or(name).trim();
        let found = Crate { name: name.into(), uses: uses.split_whitespace().map(String::from).collect() };
        if self.lines.insert(found.name.clone(), line).is_some() {
            return Err(format!("{} is listed twice", found.name));
        }
        let floor = self.floors.last_mut().ok_or_else(|| format!("{} stands on no floor", found.name))?;
        floor.crates.push(found);
        Ok(())
    }

    /// Opens a floor.
    fn open(&mut self, heading: &str) -> Result<(), String> {
        let (name, words) = heading.split_once(": ").ok_or("a floor's line is `# ---- FLOOR: WORDS`")?;
        if self.floors.iter().any(|floor| floor.name == name) {
            return Err(format!("floor {name} is there twice"));
        }
        self.floors.push(Floor { name: name.into(), words: words.trim().into(), crates: Vec::new() });
        Ok(())
    }
}

/// The crates that a crate of this floor may not use, and why; `lines` has each crate's line.
fn misuses(lines: &BTreeMap<String, usize>, floor: &Floor, above: &[Floor], user: &Crate) -> Vec<String> {
    let line = lines[&user.name];
    let why = |used: &String| {
        if let Some(higher) = above.iter().find(|floor| floor.has(used)) {
            return Some(format!("stands on the higher floor {}, not on {}", higher.name, floor.name));
        }
        match lines.get(used) {
            Some(at) if *at >= line => Some("is not listed above it".to_string()),
            None if !LIBRARIES.contains(&used.as_str()) => {
                Some("is neither listed nor a library of the toolchain".to_string())
            }
            _ => None,
        }
    };
    let told = |used: &String| Some(format!("{FILE}:{line}: {} uses {used}, which {}", user.name, why(used)?));
    user.uses.iter().filter_map(told).collect()
}

#[cfg(test)]
mod tests {
    use super::*;

    const GOOD: &str = "\
# The crates.
# ---- ground: numbers
number:
colour: number # a comment
# ---- table: the colour table

table: number colour
table_c staticlib: table
table_main: table io libc
";

    /// The faults of the good list with one piece put for another.
    fn faults_with(from: &str, to: &str) -> Vec<String> {
        assert_eq!(GOOD.matches(from).count(), 1, "{from}");
        read(&GOOD.replace(from, to)).expect_err("a fault")
    }

    #[test]
    fn floors_are_read_from_the_ground_up() {
        let floors = read(GOOD).unwrap();
        let headings: Vec<String> = floors.iter().map(Floor::heading).collect();
        assert_eq!(headings, ["ground: numbers", "table: the colour table"]);
        let names: Vec<&str> = crates(&floors).map(|found| found.name.as_str()).collect();
        assert_eq!(names, ["number", "colour", "table", "table_c", "table_main"]);
        assert_eq!(floors[1].crates[0].uses, ["number", "colour"]);
        assert!(floors[0].has("colour") && !floors[1].has("colour"));
    }

    #[test]
    fn a_crate_uses_none_of_a_higher_floor() {
        let told = "crates.txt:3: number uses table, which stands on the higher floor table, not on ground";
        assert_eq!(faults_with("number:\n", "number: table\n"), [told]);
    }

    #[test]
    fn a_crate_uses_none_further_on_and_not_itself() {
        let told = "crates.txt:3: number uses colour, which is not listed above it";
        assert_eq!(faults_with("number:\n", "number: colour\n"), [told]);
        let told = "crates.txt:3: number uses number, which is not listed above it";
        assert_eq!(faults_with("number:\n", "number: number\n"), [told]);
    }

    #[test]
    fn a_crate_uses_none_that_is_unknown() {
        let told = "crates.txt:4: colour uses numbers, which is neither listed nor a library of the toolchain";
        assert_eq!(faults_with("colour: number", "colour: numbers"), [told]);
    }

    #[test]
    fn lines_that_are_none_are_told() {
        assert_eq!(faults_with("number:\n", "number\n")[0], "crates.txt:3: a crate's line is `CRATE: CRATE ..`");
        assert_eq!(
            faults_with(": the colour", " the colour")[0],
            "crates.txt:5: a floor's line is `# ---- FLOOR: WORDS`"
        );
        assert_eq!(faults_with("---- table", "---- ground")[0], "crates.txt:5: floor ground is there twice");
        assert_eq!(faults_with("colour: number", "number: number")[0], "crates.txt:4: number is listed twice");
        assert_eq!(faults_with("# ---- ground: numbers\n", "")[0], "crates.txt:2: number stands on no floor");
        assert_eq!(read("# ---- ground: none\n").unwrap_err(), ["crates.txt: floor ground has no crate"]);
    }
}
