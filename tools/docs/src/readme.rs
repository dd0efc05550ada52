//! README.md: the picture of the layers between its two marks, and the crate table, floor by floor.
use std::collections::BTreeSet;

use crate::floors::{crates, Floor};
use crate::tables::{tables, Table};

/// The file's path.
pub const FILE: &str = "README.md";

/// The line before the picture.
const OPENS: &str = "<!-- layers -->";

/// The line behind it.
const CLOSES: &str = "<!-- /layers -->";

/// The first column's head of the crate table.
const CRATE: &str = "Crate";

/// The text with this picture between the marks.
pub fn with_picture(readme: &str, picture: &str) -> Result<String, String> {
    let marks = |mark| readme.lines().filter(|line| *line == mark).count();
    let lines = format!("{FILE}: the lines {OPENS} and {CLOSES} stand once each, in this order");
    if (marks(OPENS), marks(CLOSES)) != (1, 1) {
        return Err(lines);
    }
    let (before, rest) = readme.split_once(&format!("{OPENS}\n")).ok_or(&lines)?;
    let (_, behind) = rest.split_once(CLOSES).ok_or(&lines)?;
    Ok(format!("{before}{OPENS}\n```text\n{picture}```\n{CLOSES}{behind}"))
}

/// What is wrong with the picture.
pub fn picture_faults(readme: &str, picture: &str) -> Vec<String> {
    match with_picture(readme, picture) {
        Ok(with) if with == readme => Vec::new(),
        Ok(_) => vec![format!("{FILE}: the picture is not that of crates.txt; `docs write` draws it")],
        Err(why) => vec![why],
    }
}

/// How many rows the crate table has, and what is wrong with it: the tables whose first column is headed `Crate`, each
/// under its floor's heading, have a row for each crate, in the order of crates.txt.
pub fn table_faults(readme: &str, floors: &[Floor]) -> (usize, Vec<String>) {
    let order: Vec<&str> = crates(floors).map(|found| found.name.as_str()).collect();
    let mut faults = Vec::new();
    let mut seen = BTreeSet::new();
    let mut last = 0;
    for table in tables(readme).iter().filter(|table| table.columns[0] == CRATE) {
        for row in &table.rows {
            let name = row.cells[0].trim_matches('`');
            let mut told = |what: String| faults.push(format!("{FILE}:{}: {name} {what}", row.line));
            let Some(place) = order.iter().position(|found| *found == name) else {
                told("is no crate of crates.txt".into());
                continue;
            };
            if !seen.insert(name) {
                told("has a row above this one".into());
            } else if let Some(why) = misplaced(table, floors, name) {
                told(why);
            } else if place < last {
                told(format!("comes before {} in crates.txt", order[last]));
            }
            last = last.max(place);
        }
    }
    let missing = order.iter().filter(|name| !seen.contains(*name));
    faults.extend(missing.map(|name| format!("{FILE}: {name} has no row in the crate table")));
    (seen.len(), faults)
}

/// Why a crate's row stands in no table of its floor.
fn misplaced(table: &Table, floors: &[Floor], name: &str) -> Option<String> {
    let floor = floors.iter().find(|floor| floor.has(name))?;
    let heading = floor.heading();
    (table.heading != heading).then(|| format!("stands under `{}`, not under its floor's `{heading}`", table.heading))
}

#[cfg(test)]
mod tests {
    use super::*;
    use crate::floors::read;

    const README: &str = "\
# Name
<!-- layers -->
```text
a picture
```
<!-- /layers -->

| Call | Crate |
|---|---|
| `add` | `table` |

### ground: numbers

| Crate | Holds |
|---|---|
| `number` | laws |
| `colour` | keys |

### table: colours

| Crate | Holds |
|---|---|
| `table` | a table |
";

    /// README with one piece put for another.
    fn bent(from: &str, to: &str) -> String {
        assert_eq!(README.matches(from).count(), 1, "{from}");
        README.replace(from, to)
    }

    /// The faults of the crate table of a text.
    fn rows(readme: &str) -> Vec<String> {
        let floors = "# ---- ground: numbers\nnumber:\ncolour: number\n# ---- table: colours\ntable: colour\n";
        table_faults(readme, &read(floors).unwrap()).1
    }

    #[test]
    fn the_picture_is_written_between_the_marks() {
        let other = with_picture(README, "another\n").unwrap();
        assert_eq!(other, bent("a picture", "another"));
        assert!(picture_faults(README, "a picture\n").is_empty());
        let told = "README.md: the picture is not that of crates.txt; `docs write` draws it";
        assert_eq!(picture_faults(README, "another\n"), [told]);
        assert_eq!(picture_faults(&bent("```text\n", "```\n"), "a picture\n"), [told]);
    }

    #[test]
    fn marks_that_are_missing_twice_there_or_crossed_are_told() {
        let told = ["README.md: the lines <!-- layers --> and <!-- /layers --> stand once each, in this order"];
        assert_eq!(picture_faults(&bent("<!-- layers -->\n", ""), "a picture\n"), told);
        assert_eq!(picture_faults(&bent("<!-- /layers -->\n", ""), "a picture\n"), told);
        assert_eq!(picture_faults(&bent("# Name\n", "<!-- /layers -->\n"), "a picture\n"), told);
        let crossed = README
            .replace("<!-- layers", "<!-- x")
            .replace("<!-- /layers", "<!-- layers")
            .replace("<!-- x", "<!-- /layers");
        assert_eq!(picture_faults(&crossed, "a picture\n"), told);
    }

    #[test]
    fn each_crate_has_a_row_under_its_floor() {
        assert!(rows(README).is_empty());
        assert_eq!(rows(&bent("| `colour` | keys |\n", "")), ["README.md: colour has no row in the crate table"]);
        let told = "README.md:17: colours is no crate of crates.txt";
        assert_eq!(rows(&bent("`colour`", "`colours`"))[0], told);
        let told = "README.md:18: number has a row above this one";
        assert_eq!(rows(&bent("| keys |\n", "| keys |\n| `number` | laws |\n")), [told]);
        let told = "README.md:23: table stands under `table: shades`, not under its floor's `table: colours`";
        assert_eq!(rows(&bent("table: colours", "table: shades")), [told]);
    }

    #[test]
    fn rows_are_in_the_order_of_the_list() {
        let turned = bent("| `number` | laws |\n| `colour` | keys |\n", "| `colour` | keys |\n| `number` | laws |\n");
        assert_eq!(rows(&turned), ["README.md:17: number comes before colour in crates.txt"]);
    }
}
