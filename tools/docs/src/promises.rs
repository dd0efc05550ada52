//! docs/PROMISES.md: the names that it cites, held against the crates.
//!
//! The grammar of its tables and paragraphs:
//!
//! ```text
//! citation  =  [place " "] name {", " name}       a name stands in backticks
//! place     =  CRATE                              the names are laws that the crate promises
//!           |  CRATE/specs/FILE                   names that crates/CRATE/specs/FILE.antt declares
//!           |  CRATE/proofs/FILE                  the same of its proofs
//!           |  CRATE/src/FILE.rt                  the same of its code
//! edits     =  CRATE EDIT {", " EDIT} {"; " ..}   wrong programs, crates/CRATE/must-fail/EDIT.edit; no backticks
//! ```
//!
//! A crate promises the laws of its proofs/Promises.antt and proofs/Promises/, and those that it passes on from another
//! crate's. `TYPE.NAME` is a field or a case. Names without a place are those of any definition, function or type, of a
//! crate, what a crate's src/lib.rt offers (`crate::name`), or a path of the project; a law has its crate before it. A
//! place may stand alone, as a file. Other words go where they like. The head of a table's column says what its cells
//! hold: words that nothing is looked up in, citations, or edits. Paragraphs hold citations.
use std::collections::BTreeSet;

use crate::declared::{Declared, Law};
use crate::tables::{parts, Part, Table};
use crate::tree::Tree;

/// The file's path.
pub const FILE: &str = "docs/PROMISES.md";

/// What the cells of a column hold.
#[derive(Clone, Copy, Debug, PartialEq)]
enum Holds {
    Words,
    Citations,
    Edits,
}

/// The columns' heads.
const COLUMNS: [(&str, Holds); 18] = [
    ("Demand", Holds::Words),
    ("Point", Holds::Words),
    ("Point 3 of the mission", Holds::Words),
    ("Slip", Holds::Words),
    ("Sheet", Holds::Words),
    ("How", Holds::Words),
    ("Place", Holds::Words),
    ("Form", Holds::Words),
    ("Subject", Holds::Words),
    ("Call", Holds::Citations),
    ("Beneath it", Holds::Citations),
    ("Definition", Holds::Citations),
    ("Theorem", Holds::Citations),
    ("Theorem or contract", Holds::Citations),
    ("Function", Holds::Citations),
    ("Where", Holds::Citations),
    ("Run in", Holds::Citations),
    ("Wrong programs", Holds::Edits),
];

/// Words of the languages and of the C library, which may stand in backticks as well.
const OTHERS: [&str; 5] = ["read", "rt", "u8", "unsafe", "write"];

/// Where a cited name is said to be declared.
#[derive(Clone, Copy, Debug, PartialEq)]
enum Place<'a> {
    Crate(&'a str),
    File(&'a str),
    Anywhere,
}

/// What was looked up, how many of it, and what is wrong.
#[derive(Debug, Default, PartialEq)]
pub struct Found {
    pub looked_at: usize,
    pub faults: Vec<String>,
}

impl Found {
    /// Counts a thing looked up; it is a fault unless it holds.
    fn look(&mut self, holds: bool, told: impl FnOnce() -> String) {
        self.looked_at += 1;
        if !holds {
            self.faults.push(told());
        }
    }
}

/// All that is found of the file.
#[derive(Debug, Default, PartialEq)]
pub struct Report {
    /// Tables are in the grammar.
    pub tables: Found,
    /// Files that are cited are there.
    pub files: Found,
    /// Names cited of a file are declared there.
    pub names: Found,
    /// Laws that are cited are promised.
    pub laws: Found,
    /// Names without a place are declared somewhere.
    pub anywhere: Found,
    /// Wrong programs that are cited are there.
    pub edits: Found,
    /// Every wrong program is cited.
    pub all_edits: Found,
    /// Every promised law is cited.
    pub all_laws: Found,
}

/// Holds the text against what the crates declare.
pub fn report(text: &str, declared: &Declared, tree: &Tree) -> Report {
    let mut reader =
        Reader { declared, tree, laws: BTreeSet::new(), edits: BTreeSet::new(), report: Report::default() };
    for part in parts(text) {
        match part {
            Part::Paragraph { line, text } => reader.cite(line, &text),
            Part::Table(table) => reader.take(&table),
        }
    }
    reader.finish()
}

/// The text as far as it is read: the laws and the wrong programs that it cites, and what is found of it.
struct Reader<'a> {
    declared: &'a Declared,
    tree: &'a Tree,
    laws: BTreeSet<Law>,
    edits: BTreeSet<(String, String)>,
    report: Report,
}

impl Reader<'_> {
    /// Takes in a table, cell by cell.
    fn take(&mut self, table: &Table) {
        let holds = |head: &str| COLUMNS.iter().find(|column| column.0 == head).map(|column| column.1);
        let columns: Vec<Option<Holds>> = table.columns.iter().map(|head| holds(head)).collect();
        for (head, holds) in table.columns.iter().zip(&columns) {
            let told = || format!("{FILE}:{}: no column is headed `{head}`", table.line);
            self.report.tables.look(holds.is_some(), told);
        }
        for row in &table.rows {
            let (cells, heads) = (row.cells.len(), columns.len());
            let told = || format!("{FILE}:{}: {cells} cells stand under {heads} columns", row.line);
            self.report.tables.look(cells == heads, told);
            for (text, holds) in row.cells.iter().zip(&columns) {
                match holds {
                    Some(Holds::Citations) => self.cite(row.line, text),
                    Some(Holds::Edits) => self.cite_edits(row.line, text),
                    Some(Holds::Words) | None => {}
                }
            }
        }
    }

    /// Looks up the citations of a text.
    fn cite(&mut self, line: usize, text: &str) {
        let at = format!("{FILE}:{line}");
        let declared = self.declared;
        // What stands in backticks is every other part.
        let parts: Vec<&str> = text.split('`').collect();
        self.report.tables.look(parts.len() % 2 == 1, || format!("{at}: a backtick stands alone"));
        let words = parts.iter().step_by(2).flat_map(|outside| outside.split(' ')).map(bare);
        for path in words.filter(|word| is_path(word)) {
            self.report.files.look(declared.file(path).is_some(), || format!("{at}: there is no {path}"));
        }
        let mut place = Place::Anywhere;
        for (before, name) in parts.iter().step_by(2).zip(parts.iter().skip(1).step_by(2)) {
            if *before != ", " {
                place = place_before(before, declared);
            }
            self.look_up(&at, place, name);
        }
    }

    /// Looks up a name at its place.
    fn look_up(&mut self, at: &str, place: Place, name: &str) {
        let report = &mut self.report;
        match place {
            Place::Crate(of) => {
                let law = self.declared.law(of, name);
                report.laws.look(law.is_some(), || format!("{at}: {of} promises no `{name}`"));
                self.laws.extend(law);
            }
            Place::File(path) => {
                if let Some(names) = self.declared.file(path) {
                    report.names.look(names.contains(name), || format!("{at}: {path} declares no `{name}`"));
                }
            }
            Place::Anywhere => {
                let known = self.declared.anywhere(name) || OTHERS.contains(&name) || self.tree.has(name);
                let told = || format!("{at}: no crate declares `{name}`, or it is a law without its crate");
                report.anywhere.look(known, told);
            }
        }
    }

    /// Looks up the wrong programs of a cell.
    fn cite_edits(&mut self, line: usize, text: &str) {
        for group in text.split("; ").filter(|group| !group.is_empty()) {
            let (of, names) = group.split_once(' ').unwrap_or((group, ""));
            for name in names.split(", ") {
                let edit = (of.to_string(), name.to_string());
                let known = self.declared.edits().contains(&edit);
                self.report.edits.look(known, || format!("{FILE}:{line}: there is no wrong program {of} {name}"));
                self.edits.extend(known.then_some(edit));
            }
        }
    }

    /// Looks for what the whole text does not cite.
    fn finish(mut self) -> Report {
        for edit in self.declared.edits() {
            let told = || format!("{FILE}: the wrong program {} {} is not cited", edit.0, edit.1);
            self.report.all_edits.look(self.edits.contains(edit), told);
        }
        for law in self.declared.laws() {
            let told = || format!("{FILE}: the promise {} `{}` is not cited", law.0, law.1);
            self.report.all_laws.look(self.laws.contains(&law), told);
        }
        self.report
    }
}

/// The place that the words before a name end with.
fn place_before<'a>(before: &'a str, declared: &Declared) -> Place<'a> {
    let Some(words) = before.strip_suffix(' ') else { return Place::Anywhere };
    let word = words.rsplit([' ', '(']).next().unwrap_or_default();
    if is_path(word) {
        Place::File(word)
    } else if declared.has_crate(word) {
        Place::Crate(word)
    } else {
        Place::Anywhere
    }
}

/// A word without the marks around it.
fn bare(word: &str) -> &str {
    word.trim_start_matches('(').trim_end_matches([')', ',', ';', ':', '.'])
}

/// Whether a word is a place with a file.
fn is_path(word: &str) -> bool {
    let folders: Vec<&str> = word.split('/').collect();
    folders.len() > 2 && ["specs", "proofs", "src"].contains(&folders[1])
}

#[cfg(test)]
mod tests {
    use super::*;

    const PROMISES: &str = "\
# Promises

Beside the scope: lower `low-law`, and what `meaning` is
(upper/specs/Words `meaning`); see `docs/PROMISES.md`.

| Demand | Definition | Theorem or contract | Function | Wrong programs |
|---|---|---|---|---|
| \"`P6 `\" | upper/specs/Words `meaning`, `Meets.answer` | upper `up-law`, `low-law`; contract of `call` \
| upper/src/lib.rt `call`; `upper::call` | upper slips, falls; lower stumbles |
| more | `Meets`; upper/specs/Words | lower/proofs/Laws `hidden-law` (see `Meets.answer`) | | |
";

    /// The project that the text is about.
    fn tree() -> Tree {
        let mut tree = Tree::default();
        tree.put(FILE, PROMISES);
        tree.put("crates/lower/proofs/Promises.antt", "pub low-law : ℕ\n");
        tree.put("crates/lower/proofs/Laws.antt", "pub hidden-law : ℕ\n");
        tree.put("crates/lower/must-fail/stumbles.edit", "");
        tree.put(
            "crates/upper/proofs/Promises.antt",
            "pub up-law : ℕ\npub use Rattle.lower.proofs.Promises.{low-law}\n",
        );
        tree.put(
            "crates/upper/specs/Words.antt",
            "pub meaning : ℕ\npub record Meets : Type 0 where\n  pub answer : ℕ\n",
        );
        tree.put("crates/upper/src/lib.rt", "pub fn call() {}\n");
        tree.put("crates/upper/must-fail/slips.edit", "");
        tree.put("crates/upper/must-fail/falls.edit", "");
        tree
    }

    /// The report of a text on that project.
    fn report_of(text: &str) -> Report {
        let tree = tree();
        report(text, &Declared::of(&tree, ["lower", "upper"].into_iter()), &tree)
    }

    /// Every fault of the text with one piece put for another.
    fn faults_with(from: &str, to: &str) -> Vec<String> {
        assert_eq!(PROMISES.matches(from).count(), 1, "{from}");
        faults(report_of(&PROMISES.replace(from, to)))
    }

    /// Every fault of a report.
    fn faults(report: Report) -> Vec<String> {
        let Report { tables, files, names, laws, anywhere, edits, all_edits, all_laws } = report;
        [tables, files, names, laws, anywhere, edits, all_edits, all_laws]
            .into_iter()
            .flat_map(|found| found.faults)
            .collect()
    }

    #[test]
    fn a_text_in_the_grammar_has_no_fault_and_all_of_it_is_looked_at() {
        let report = report_of(PROMISES);
        let Report { tables, files, names, laws, anywhere, edits, all_edits, all_laws } = &report;
        let looked_at = [tables, files, names, laws, anywhere, edits, all_edits, all_laws].map(|found| found.looked_at);
        assert_eq!(looked_at, [14, 5, 5, 3, 6, 3, 3, 2]);
        assert_eq!(faults(report), Vec::<String>::new());
    }

    #[test]
    fn a_file_that_is_not_there_is_found() {
        let told = "docs/PROMISES.md:9: there is no upper/specs/Word";
        assert_eq!(faults_with("`Meets`; upper/specs/Words", "`Meets`; upper/specs/Word"), [told]);
        let told = "docs/PROMISES.md:8: there is no uper/src/lib.rt";
        assert_eq!(faults_with("| upper/src/lib.rt", "| uper/src/lib.rt"), [told]);
        let told = "docs/PROMISES.md:3: there is no upper/specs/Word";
        assert_eq!(faults_with("(upper/specs/Words", "(upper/specs/Word"), [told]);
    }

    #[test]
    fn a_definition_that_is_not_declared_is_found() {
        let told = "docs/PROMISES.md:8: upper/specs/Words declares no `meanings`";
        assert_eq!(faults_with("`meaning`, ", "`meanings`, "), [told]);
        let told = "docs/PROMISES.md:8: upper/specs/Words declares no `Meets.answers`";
        assert_eq!(faults_with("`meaning`, `Meets.answer`", "`meaning`, `Meets.answers`"), [told]);
    }

    #[test]
    fn a_function_that_is_not_declared_is_found() {
        let told = "docs/PROMISES.md:8: upper/src/lib.rt declares no `calls`";
        assert_eq!(faults_with("lib.rt `call`", "lib.rt `calls`"), [told]);
    }

    #[test]
    fn a_law_that_is_not_promised_is_found() {
        let told = "docs/PROMISES.md:8: upper promises no `lower-law`";
        assert_eq!(faults_with("`up-law`, `low-law`", "`up-law`, `lower-law`"), [told]);
        let told = "docs/PROMISES.md:3: lower promises no `hidden-law`";
        assert_eq!(faults_with("lower `low-law`", "lower `hidden-law`"), [told]);
    }

    #[test]
    fn a_law_without_its_crate_is_found() {
        let told = "docs/PROMISES.md:3: no crate declares `low-law`, or it is a law without its crate";
        assert_eq!(faults_with("lower `low-law`", "L `low-law`"), [told]);
    }

    #[test]
    fn a_name_that_no_crate_declares_is_found() {
        let told = |name| format!("docs/PROMISES.md:8: no crate declares `{name}`, or it is a law without its crate");
        assert_eq!(faults_with("contract of `call`", "contract of `called`"), [told("called")]);
        assert_eq!(faults_with("`upper::call`", "`lower::call`"), [told("lower::call")]);
    }

    #[test]
    fn a_wrong_program_that_is_not_there_is_found() {
        let told = "docs/PROMISES.md:8: there is no wrong program upper stumbles";
        assert_eq!(faults_with("upper slips", "upper stumbles, slips"), [told]);
        let told = "docs/PROMISES.md:8: there is no wrong program upper ";
        assert_eq!(faults_with("lower stumbles", "lower stumbles; upper"), [told]);
    }

    #[test]
    fn a_wrong_program_that_is_not_cited_is_found() {
        let told = "docs/PROMISES.md: the wrong program upper falls is not cited";
        assert_eq!(faults_with("slips, falls", "slips"), [told]);
    }

    #[test]
    fn a_promise_that_is_not_cited_is_found() {
        assert_eq!(faults_with("`up-law`, ", ""), ["docs/PROMISES.md: the promise upper `up-law` is not cited"]);
        let without = PROMISES.replace("lower `low-law`, and ", "").replace("`up-law`, `low-law`", "`up-law`");
        assert_eq!(faults(report_of(&without)), ["docs/PROMISES.md: the promise lower `low-law` is not cited"]);
    }

    #[test]
    fn a_table_out_of_the_grammar_is_found() {
        let told = "docs/PROMISES.md:6: no column is headed `Functions`";
        assert_eq!(faults_with("| Function |", "| Functions |"), [told]);
        let told = "docs/PROMISES.md:9: 6 cells stand under 5 columns";
        assert_eq!(faults_with("| | |\n", "| | | |\n"), [told]);
        let told = "docs/PROMISES.md:9: a backtick stands alone";
        assert_eq!(faults_with("`Meets`; upper", "`Meets; upper")[0], told);
    }
}
