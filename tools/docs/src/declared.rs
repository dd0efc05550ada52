//! The names that the crates' files declare.
//!
//! A name within a record, struct or enum is `TYPE.NAME`.
use std::collections::{BTreeMap, BTreeSet};

use crate::tree::Tree;

/// Names.
pub type Names = BTreeSet<String>;

/// Where the crates stand.
const CRATES: &str = "crates/";

/// The public names of an `.antt` file: definitions, laws, records with their fields.
pub fn in_antt(text: &str) -> Names {
    let mut names = Names::new();
    let mut within: Option<(usize, &str)> = None;
    for line in text.lines() {
        let indent = line.len() - line.trim_start().len();
        let line = line.trim();
        if line.is_empty() || line.starts_with("--") {
            continue;
        }
        within = within.filter(|&(outer, _)| indent > outer);
        let words: Vec<&str> =
            line.split_whitespace().skip_while(|word| ["abbrev", "unfoldable"].contains(word)).collect();
        let name = match words[..] {
            ["pub", "use" | "mod", ..] => continue,
            ["pub", "record" | "data", name, ..] => {
                within = Some((indent, name));
                names.insert(name.to_string());
                continue;
            }
            ["pub", name, ..] => name,
            _ => continue,
        };
        names.insert(within.map_or(name.to_string(), |(_, record)| format!("{record}.{name}")));
    }
    names
}

/// The names of an `.rt` file: functions, constants, structs with their fields, enums with their cases.
pub fn in_rt(text: &str) -> Names {
    let mut names = Names::new();
    let mut within: Option<(usize, &str)> = None;
    for line in text.lines() {
        let indent = line.len() - line.trim_start().len();
        let line = line.trim();
        if line.is_empty() || line.starts_with("//") {
            continue;
        }
        within = within.filter(|&(outer, _)| indent > outer);
        let words: Vec<&str> =
            line.split_whitespace().skip_while(|word| ["pub", "extern", "\"C\""].contains(word)).collect();
        match (within, &words[..]) {
            (None, [kind @ ("fn" | "const" | "struct" | "enum"), name, ..]) => {
                let name = front(name);
                if ["struct", "enum"].contains(kind) {
                    within = Some((indent, name));
                }
                names.insert(name.to_string());
            }
            (Some((_, outer)), [name, ..]) => {
                names.insert(format!("{outer}.{}", front(name)));
            }
            _ => {}
        }
    }
    names
}

/// The letters, digits and underlines that a word begins with.
fn front(word: &str) -> &str {
    word.split(|char: char| !char.is_alphanumeric() && char != '_').next().unwrap_or_default()
}

/// The names that a file of the crates declares, by its path.
fn in_file(path: &str, text: &str) -> Option<Names> {
    match path.rsplit_once('.')?.1 {
        "antt" => Some(in_antt(text)),
        "rt" => Some(in_rt(text)),
        _ => None,
    }
}

/// A law: the crate that shows it, and its name.
pub type Law = (String, String);

/// What the crates declare.
#[derive(Default)]
pub struct Declared {
    /// The names of each file, by the path that a citation has: `CRATE/specs/FILE`, `CRATE/proofs/FILE`,
    /// `CRATE/src/FILE.rt`.
    files: BTreeMap<String, Names>,
    /// The names that definitions and code have in any crate, `crate::function` among them.
    anywhere: Names,
    /// The laws that each crate promises, by their names.
    promised: BTreeMap<String, Names>,
    /// The laws that each crate passes on: by their names, the crates that they come from.
    passed_on: BTreeMap<String, BTreeMap<String, String>>,
    /// The wrong programs of each crate.
    edits: BTreeSet<(String, String)>,
}

impl Declared {
    /// What the crates of these names declare.
    pub fn of<'a>(tree: &Tree, crates: impl Iterator<Item = &'a str>) -> Declared {
        let mut declared = Declared::default();
        for name in crates {
            declared.take(tree, name);
        }
        declared
    }

    /// Takes in a crate.
    fn take(&mut self, tree: &Tree, name: &str) {
        self.anywhere.insert(name.to_string());
        let promised = self.promised.entry(name.to_string()).or_default();
        let passed_on = self.passed_on.entry(name.to_string()).or_default();
        for (path, text) in tree.below(&format!("{CRATES}{name}/")) {
            if let Some(edit) = path.strip_prefix("must-fail/").and_then(|file| file.strip_suffix(".edit")) {
                self.edits.insert((name.to_string(), edit.to_string()));
            }
            let Some(names) = in_file(path, text) else { continue };
            if path == "proofs/Promises.antt" || path.starts_with("proofs/Promises/") {
                promised.extend(names.iter().cloned());
                passed_on.extend(passes(text));
            }
            if !path.starts_with("proofs/") {
                self.anywhere.extend(names.iter().cloned());
            }
            if path == "src/lib.rt" {
                let offered = names.iter().map(String::as_str).chain(offers(text));
                self.anywhere.extend(offered.map(|found| format!("{name}::{found}")));
            }
            self.files.insert(format!("{name}/{}", path.trim_end_matches(".antt")), names);
        }
    }

    /// The names of the file that a citation's path leads to.
    pub fn file(&self, path: &str) -> Option<&Names> {
        self.files.get(path)
    }

    /// Whether a definition, a function, a type or a crate has this name.
    pub fn anywhere(&self, name: &str) -> bool {
        self.anywhere.contains(name)
    }

    /// Whether this is a crate.
    pub fn has_crate(&self, name: &str) -> bool {
        self.promised.contains_key(name)
    }

    /// The law that a crate promises by this name, its own or one that it passes on.
    pub fn law(&self, of: &str, name: &str) -> Option<Law> {
        let mut at = of;
        for _ in 0..=self.promised.len() {
            if self.promised.get(at)?.contains(name) {
                return Some((at.to_string(), name.to_string()));
            }
            at = self.passed_on.get(at)?.get(name)?;
        }
        None
    }

    /// Every law that a crate shows and promises.
    pub fn laws(&self) -> BTreeSet<Law> {
        let laws =
            |(of, names): (&String, &Names)| names.iter().map(|name| (of.clone(), name.clone())).collect::<Vec<_>>();
        self.promised.iter().flat_map(laws).collect()
    }

    /// Every wrong program, behind its crate.
    pub fn edits(&self) -> &BTreeSet<(String, String)> {
        &self.edits
    }
}

/// The names that `pub use ..::NAME;` and `pub use ..::{NAME, ..};` offer from another file or crate.
fn offers(text: &str) -> impl Iterator<Item = &str> {
    let uses = text.split("\npub use ").skip(1).filter_map(|rest| Some(rest.split_once(';')?.0));
    let names = uses.filter_map(|path| path.rsplit("::").next());
    let each = names.flat_map(|names| names.trim_matches(['{', '}']).split(','));
    each.map(str::trim).filter(|name| !name.is_empty())
}

/// The names that `pub use Rattle.CRATE.proofs.Promises.{..}` passes on, with the crates they come from.
fn passes(text: &str) -> Vec<(String, String)> {
    let code: String =
        text.lines().filter(|line| !line.trim().starts_with("--")).map(|line| line.to_string() + "\n").collect();
    let mut passed = Vec::new();
    for from in code.split("pub use Rattle.").skip(1) {
        let Some((path, rest)) = from.split_once(".{") else { continue };
        let Some((of, _)) = path.split_once(".proofs.Promises") else { continue };
        let names = rest.split('}').next().unwrap_or_default();
        let names = names.split(',').map(str::trim).filter(|name| !name.is_empty());
        passed.extend(names.map(|name| (name.to_string(), of.to_string())));
    }
    passed
}

#[cfg(test)]
mod tests {
    use super::*;

    const ANTT: &str = "\
-- pub no : a comment
use lib.List.{List}
pub mod Other
pub use Other.{none}
abbrev pub key_of : ℕ → ℕ
key_of x = x
unfoldable pub figure :
    ℕ
pub record Meets (o : Outcome)
    (r : ℕ) : Type 0 where
  pub answer : r ≡ o.answer

  -- the keys
  pub keys : ℕ
pub data Refusal : Type 0 where
  FULL : Refusal
pub key-most : ℕ
private : ℕ
module _ {n : ℕ} where
  pub inner-law : ℕ
";

    const RT: &str = "\
// fn none
use table::Record;
mod inner;
pub const MOST: u64 = 1;
pub struct Means {
    // the red one
    pub red: f64,
}
pub enum Mean {
    NoPixels,
    Value(f64),
}
pub extern \"C\" fn kf_run(
    keys: &[u32],
) -> u32
    ensures { true }
{
    let a = 1;
    a
}
fn low(x: u8) -> u8 { x }
";

    /// These names, sorted.
    fn names(names: &[&str]) -> Names {
        names.iter().map(|name| name.to_string()).collect()
    }

    #[test]
    fn definitions_laws_and_fields_are_found() {
        let found = ["Meets", "Meets.answer", "Meets.keys", "Refusal", "figure", "inner-law", "key-most", "key_of"];
        assert_eq!(in_antt(ANTT), names(&found));
    }

    #[test]
    fn functions_types_fields_and_constants_are_found() {
        let found = ["MOST", "Mean", "Mean.NoPixels", "Mean.Value", "Means", "Means.red", "kf_run", "low"];
        assert_eq!(in_rt(RT), names(&found));
    }

    /// Two crates; `upper` passes on a law of `lower`.
    fn declared() -> Declared {
        let mut tree = Tree::default();
        tree.put("crates/lower/proofs/Promises.antt", "pub low-law : ℕ\npub other-law : ℕ\n");
        tree.put(
            "crates/upper/proofs/Promises.antt",
            "pub use Rattle.lower.proofs.Promises.{\n  low-law,\n}\npub mod Runs\n",
        );
        tree.put("crates/upper/proofs/Promises/Runs.antt", "  pub run-law : ℕ\n");
        tree.put("crates/upper/proofs/Runs.antt", "pub hidden : ℕ\n");
        tree.put("crates/upper/specs/Lib.antt", "pub meaning : ℕ\n");
        tree.put(
            "crates/upper/src/lib.rt",
            "mod part;\npub use part::passed;\npub use part::{\n    one, two,\n};\npub fn call() {}\n",
        );
        tree.put("crates/upper/src/part.rt", "pub fn passed() {}\npub fn one() {}\npub fn two() {}\nfn inner() {}\n");
        tree.put("crates/upper/must-fail/slips.edit", "");
        tree.put("crates/unlisted/specs/Lib.antt", "pub lost : ℕ\n");
        Declared::of(&tree, ["lower", "upper"].into_iter())
    }

    #[test]
    fn laws_are_found_where_they_are_shown() {
        let declared = declared();
        let law = |of: &str, name: &str| Some((of.to_string(), name.to_string()));
        assert_eq!(declared.law("upper", "low-law"), law("lower", "low-law"));
        assert_eq!(declared.law("upper", "run-law"), law("upper", "run-law"));
        assert_eq!(declared.law("upper", "other-law"), None);
        assert_eq!(declared.law("upper", "hidden"), None);
        assert_eq!(declared.law("nowhere", "low-law"), None);
        let laws: Vec<Law> = declared.laws().into_iter().collect();
        assert_eq!(laws.iter().map(|law| law.1.as_str()).collect::<Vec<_>>(), ["low-law", "other-law", "run-law"]);
    }

    #[test]
    fn crates_that_pass_a_law_round_end_nowhere() {
        let mut tree = Tree::default();
        tree.put("crates/a/proofs/Promises.antt", "pub use Rattle.b.proofs.Promises.{law}\n");
        tree.put("crates/b/proofs/Promises.antt", "pub use Rattle.a.proofs.Promises.{law}\n");
        assert_eq!(Declared::of(&tree, ["a", "b"].into_iter()).law("a", "law"), None);
    }

    #[test]
    fn names_are_found_in_files_and_anywhere() {
        let declared = declared();
        assert!(declared.file("upper/specs/Lib").unwrap().contains("meaning"));
        assert!(declared.file("upper/src/lib.rt").unwrap().contains("call"));
        assert!(declared.file("upper/specs/None").is_none());
        let known = ["meaning", "call", "inner", "upper", "upper::call", "upper::passed", "upper::one", "upper::two"];
        assert!(known.iter().all(|name| declared.anywhere(name)));
        let unknown = ["run-law", "hidden", "lost", "unlisted", "upper::inner", "lower::call"];
        assert!(unknown.iter().all(|name| !declared.anywhere(name)));
        assert_eq!(declared.edits().iter().collect::<Vec<_>>(), [&("upper".to_string(), "slips".to_string())]);
    }
}
