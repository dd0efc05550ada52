//! A Markdown text taken apart: tables and paragraphs, each with its line and the heading above it.

/// A part of a text.
#[derive(Debug, PartialEq)]
pub enum Part<'a> {
    Table(Table<'a>),
    /// A paragraph, its lines joined by blanks.
    Paragraph {
        line: usize,
        text: String,
    },
}

/// A table: the heading above it, its columns' heads, its rows.
#[derive(Debug, Default, PartialEq)]
pub struct Table<'a> {
    pub line: usize,
    pub heading: &'a str,
    pub columns: Vec<&'a str>,
    pub rows: Vec<Row<'a>>,
}

/// A table's row.
#[derive(Debug, PartialEq)]
pub struct Row<'a> {
    pub line: usize,
    pub cells: Vec<&'a str>,
}

/// The parts of a text, in order. A line that begins with `|` is a table's, one that begins with `#` a heading; what
/// stands between two lines of three backticks is passed over.
pub fn parts(text: &str) -> Vec<Part<'_>> {
    let mut parts: Vec<Part> = Vec::new();
    let mut heading = "";
    let mut goes_on = false;
    let mut fenced = false;
    for (line, text) in (1..).zip(text.lines()) {
        let text = text.trim_end();
        let fence = text.starts_with("```");
        fenced ^= fence;
        if fence || fenced || text.is_empty() || text.starts_with('#') {
            goes_on = false;
            if text.starts_with('#') && !fenced {
                heading = text.trim_start_matches('#').trim();
            }
            continue;
        }
        match parts.last_mut() {
            Some(Part::Table(table)) if goes_on && text.starts_with('|') => take_row(table, line, text),
            Some(Part::Paragraph { text: before, .. }) if goes_on && !text.starts_with('|') => {
                *before += " ";
                *before += text.trim();
            }
            _ if text.starts_with('|') => {
                parts.push(Part::Table(Table { line, heading, columns: cells(text), rows: Vec::new() }));
            }
            _ => parts.push(Part::Paragraph { line, text: text.trim().to_string() }),
        }
        goes_on = true;
    }
    parts
}

/// Takes a line into a table, unless it is the rule beneath the columns' heads.
fn take_row<'a>(table: &mut Table<'a>, line: usize, text: &'a str) {
    if text.chars().any(|char| !"|-: ".contains(char)) {
        table.rows.push(Row { line, cells: cells(text) });
    }
}

/// The cells of a line.
fn cells(text: &str) -> Vec<&str> {
    let inner = text.strip_prefix('|').unwrap_or(text);
    inner.strip_suffix('|').unwrap_or(inner).split('|').map(str::trim).collect()
}

/// The tables of a text.
pub fn tables(text: &str) -> Vec<Table<'_>> {
    let table = |part| match part {
        Part::Table(table) => Some(table),
        Part::Paragraph { .. } => None,
    };
    parts(text).into_iter().filter_map(table).collect()
}

#[cfg(test)]
mod tests {
    use super::*;

    #[test]
    fn tables_and_paragraphs_come_apart() {
        let parts = parts("# One\nfirst\n  line\n\n## Two\n\n| A | B |\n|---|:-:|\n| a | |\n| c | d |\nbehind\n");
        let row = |line, cells: [&'static str; 2]| Row { line, cells: cells.to_vec() };
        let table = Table {
            line: 7,
            heading: "Two",
            columns: vec!["A", "B"],
            rows: vec![row(9, ["a", ""]), row(10, ["c", "d"])],
        };
        let paragraph = |line, text: &str| Part::Paragraph { line, text: text.to_string() };
        assert_eq!(parts, [paragraph(2, "first line"), Part::Table(table), paragraph(11, "behind")]);
    }

    #[test]
    fn what_is_fenced_is_passed_over() {
        let text = "# One\n```text\n# Two\n| A |\n```\n    # code\n\n| B |\n";
        let tables = tables(text);
        assert_eq!(tables.iter().map(|table| (table.heading, table.line)).collect::<Vec<_>>(), [("One", 8)]);
    }
}
