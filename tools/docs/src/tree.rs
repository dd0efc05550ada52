//! The files of the project, each under its path from the top.
use std::collections::BTreeMap;
use std::fs;
use std::path::Path;

/// Folders whose files are made, or kept by git.
const PASSED_OVER: [&str; 3] = ["target", "out", ".git"];

/// The project's files, by path.
#[derive(Clone, Default)]
pub struct Tree {
    files: BTreeMap<String, String>,
}

impl Tree {
    /// The files below a folder; bytes that are no text are replaced.
    pub fn read(top: &Path) -> Result<Tree, String> {
        let mut tree = Tree::default();
        tree.take(top, "")?;
        Ok(tree)
    }

    /// Takes in the files of a folder whose path from the top is `path`, with a slash behind it unless it is the top.
    fn take(&mut self, folder: &Path, path: &str) -> Result<(), String> {
        let told = |why: std::io::Error| format!("{}: {why}", folder.display());
        for entry in fs::read_dir(folder).map_err(told)? {
            let entry = entry.map_err(told)?;
            let name = entry.file_name().to_string_lossy().into_owned();
            let kind = entry.file_type().map_err(told)?;
            if kind.is_dir() && !PASSED_OVER.contains(&name.as_str()) {
                self.take(&entry.path(), &format!("{path}{name}/"))?;
            } else if kind.is_file() {
                let bytes = fs::read(entry.path()).map_err(|why| format!("{}: {why}", entry.path().display()))?;
                self.put(&format!("{path}{name}"), &String::from_utf8_lossy(&bytes));
            }
        }
        Ok(())
    }

    /// Puts a file in, over the one that has its path.
    pub fn put(&mut self, path: &str, text: &str) {
        self.files.insert(path.to_string(), text.to_string());
    }

    /// A file's text.
    pub fn text(&self, path: &str) -> Result<&str, String> {
        self.files.get(path).map(String::as_str).ok_or_else(|| format!("there is no {path}"))
    }

    /// The files whose path begins so, with the rest of their paths.
    pub fn below<'a>(&'a self, start: &'a str) -> impl Iterator<Item = (&'a str, &'a str)> {
        let from = self.files.range(start.to_string()..);
        from.map_while(move |(path, text)| Some((path.strip_prefix(start)?, text.as_str())))
    }

    /// Whether there is a file of this path, or a folder, whose path may end with a slash.
    pub fn has(&self, path: &str) -> bool {
        let folder = format!("{}/", path.trim_end_matches('/'));
        self.files.contains_key(path) || self.below(&folder).next().is_some()
    }
}

#[cfg(test)]
mod tests {
    use super::*;

    #[test]
    fn a_tree_has_its_files_and_folders() {
        let mut tree = Tree::default();
        tree.put("a/b.txt", "one");
        tree.put("ab.txt", "two");
        assert_eq!(tree.text("a/b.txt"), Ok("one"));
        assert_eq!(tree.text("a/c.txt"), Err("there is no a/c.txt".to_string()));
        assert_eq!(tree.below("a/").collect::<Vec<_>>(), [("b.txt", "one")]);
        assert!(tree.has("a") && tree.has("a/") && tree.has("a/b.txt"));
        assert!(!tree.has("b") && !tree.has("a/b"));
    }

    #[test]
    fn the_package_reads_itself_but_nothing_made() {
        let tree = Tree::read(Path::new(env!("CARGO_MANIFEST_DIR"))).unwrap();
        assert!(tree.text("src/tree.rs").unwrap().contains("the_package_reads_itself"));
        let tree = Tree::read(Path::new(env!("CARGO_MANIFEST_DIR")).parent().unwrap().parent().unwrap()).unwrap();
        assert!(tree.has("tools/docs/src") && !tree.has("target") && !tree.has(".git"));
        assert!(tree.has("crates/number/specs") && !tree.has("crates/number/out"));
    }
}
