//! Everything that is held against the crates, check by check.
use crate::declared::Declared;
use crate::floors::{self, crates, Floor};
use crate::promises::{self, Found};
use crate::tree::Tree;
use crate::{picture, readme};

/// A check: what must hold, how many things were looked at, and the faults, each in a line.
#[derive(Debug)]
pub struct Check {
    pub name: &'static str,
    pub looked_at: usize,
    pub faults: Vec<String>,
}

impl Check {
    /// A check with these faults; one that looks at nothing has that fault.
    fn of(name: &'static str, looked_at: usize, mut faults: Vec<String>) -> Check {
        if looked_at == 0 && faults.is_empty() {
            faults.push(format!("there is nothing to look at: {name}"));
        }
        Check { name, looked_at, faults }
    }

    /// Whether all that was looked at is right.
    pub fn passed(&self) -> bool {
        self.faults.is_empty()
    }
}

/// Every check. Where crates.txt has faults there are no others.
pub fn all(tree: &Tree) -> Vec<Check> {
    let name = "crates.txt goes from the ground up, floor by floor";
    let floors = match tree.text(floors::FILE).map_err(|why| vec![why]).and_then(floors::read) {
        Ok(floors) => floors,
        Err(faults) => return vec![Check::of(name, 0, faults)],
    };
    let mut checks = vec![Check::of(name, crates(&floors).count(), Vec::new())];
    checks.extend(of_readme(tree, &floors));
    checks.extend(of_promises(tree, &floors));
    checks
}

/// The checks of README.md.
fn of_readme(tree: &Tree, floors: &[Floor]) -> [Check; 2] {
    let readme = tree.text(readme::FILE);
    let drawn = readme.clone().and_then(|text| Ok((text, picture::draw(floors)?)));
    let picture = drawn.map_or_else(|why| vec![why], |(text, drawn)| readme::picture_faults(text, &drawn));
    let (rows, faults) = readme.map_or_else(|why| (0, vec![why]), |text| readme::table_faults(text, floors));
    [
        Check::of("README.md has the picture of these floors", 1, picture),
        Check::of("README.md has a row for each crate, under its floor", rows, faults),
    ]
}

/// The checks of docs/PROMISES.md.
fn of_promises(tree: &Tree, floors: &[Floor]) -> Vec<Check> {
    let text = match tree.text(promises::FILE) {
        Ok(text) => text,
        Err(why) => return vec![Check::of("docs/PROMISES.md is there", 1, vec![why])],
    };
    let declared = Declared::of(tree, crates(floors).map(|found| found.name.as_str()));
    let report = promises::report(text, &declared, tree);
    let check = |name, found: Found| Check::of(name, found.looked_at, found.faults);
    vec![
        check("docs/PROMISES.md is in its grammar", report.tables),
        check("files that it cites are there", report.files),
        check("names that it cites of a file are declared there", report.names),
        check("laws that it cites are promised", report.laws),
        check("names that it cites without a place are declared somewhere", report.anywhere),
        check("wrong programs that it cites are there", report.edits),
        check("it cites every wrong program", report.all_edits),
        check("it cites every promise", report.all_laws),
    ]
}

#[cfg(test)]
mod tests {
    use super::*;

    const CRATES: &str = "# ---- ground: numbers\nnumber:\n";
    const PROMISES: &str = "\
`number`: number `law`

| Definition | Function | Wrong programs |
|---|---|---|
| number/specs/Lib `one` | number/src/lib.rt `call` | number slips |
";

    /// A project in which every check passes.
    fn tree() -> Tree {
        let mut tree = Tree::default();
        let readme = "<!-- layers -->\n<!-- /layers -->\n## ground: numbers\n\n| Crate |\n|---|\n| `number` |\n";
        let drawn = picture::draw(&floors::read(CRATES).unwrap()).unwrap();
        tree.put("crates.txt", CRATES);
        tree.put("README.md", &readme::with_picture(readme, &drawn).unwrap());
        tree.put("docs/PROMISES.md", PROMISES);
        tree.put("crates/number/proofs/Promises.antt", "pub law : ℕ\n");
        tree.put("crates/number/specs/Lib.antt", "pub one : ℕ\n");
        tree.put("crates/number/src/lib.rt", "fn call() {}\n");
        tree.put("crates/number/must-fail/slips.edit", "");
        tree
    }

    /// The names of the checks that fail once a file has this text.
    fn failing(path: &str, text: &str) -> Vec<&'static str> {
        let mut tree = tree();
        tree.put(path, text);
        all(&tree).iter().filter(|check| !check.passed()).map(|check| check.name).collect()
    }

    #[test]
    fn a_good_project_passes_every_check() {
        let checks = all(&tree());
        assert_eq!(checks.len(), 11);
        assert!(checks.iter().all(|check| check.passed() && check.looked_at > 0), "{checks:?}");
    }

    #[test]
    fn each_check_can_fail() {
        assert_eq!(failing("crates.txt", "number:\n"), ["crates.txt goes from the ground up, floor by floor"]);
        let added = "# ---- ground: numbers\nnumber:\nbits: number\n";
        let names =
            ["README.md has the picture of these floors", "README.md has a row for each crate, under its floor"];
        assert_eq!(failing("crates.txt", added), names);
        let bent = |from: &str, to: &str| failing("docs/PROMISES.md", &PROMISES.replace(from, to));
        assert_eq!(bent("| Function |", "| Functions |")[0], "docs/PROMISES.md is in its grammar");
        assert_eq!(bent("specs/Lib", "specs/Lob")[0], "files that it cites are there");
        assert_eq!(bent("`one`", "`two`"), ["names that it cites of a file are declared there"]);
        assert_eq!(bent("number `law`", "number `law`, `laws`"), ["laws that it cites are promised"]);
        assert_eq!(bent("`number`:", "`numbers`:"), ["names that it cites without a place are declared somewhere"]);
        assert_eq!(bent("number slips", "number slips, falls"), ["wrong programs that it cites are there"]);
        assert_eq!(failing("crates/number/must-fail/falls.edit", ""), ["it cites every wrong program"]);
        let more = failing("crates/number/proofs/Promises.antt", "pub law : ℕ\npub laws : ℕ\n");
        assert_eq!(more, ["it cites every promise"]);
    }

    #[test]
    fn a_check_that_looks_at_nothing_fails() {
        let failed = failing("docs/PROMISES.md", &PROMISES.replace("number slips", ""));
        assert_eq!(failed, ["wrong programs that it cites are there", "it cites every wrong program"]);
    }

    #[test]
    fn a_file_that_is_missing_fails_its_checks() {
        let mut tree = Tree::default();
        assert_eq!(all(&tree).iter().filter(|check| !check.passed()).count(), 1);
        tree.put("crates.txt", CRATES);
        assert_eq!(all(&tree).iter().filter(|check| !check.passed()).count(), 3);
    }
}
