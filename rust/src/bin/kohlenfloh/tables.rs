//! The order for other programs: CSV for spreadsheets, and JSON with all figures of the sheet.
use kohlenfloh::made::VERSION;
use kohlenfloh::Run;

use crate::digits::quotient;
use crate::help::MADE;
use crate::order::{hex, Order};

/// What is told of each shade; the last column only where some are fixed.
const COLUMNS: [&str; 9] = ["shade", "red", "green", "blue", "hex", "pixels", "share", "used", "stock"];

/// What is told of a colour, in the order of these columns.
const COLOUR: [&str; 4] = [COLUMNS[1], COLUMNS[2], COLUMNS[3], COLUMNS[4]];

/// The order as CSV: the columns' names, then a line for each shade.
pub fn csv(order: &Order) -> String {
    let row = |number| row(order, number, "", ["yes", "no"]).join(",") + "\n";
    columns(order).join(",") + "\n" + &(0..order.lines.len()).map(row).collect::<String>()
}

/// The columns of an order.
fn columns(order: &Order) -> &'static [&'static str] {
    &COLUMNS[..COLUMNS.len() - usize::from(order.stock().next().is_none())]
}

/// The order as a JSON object: the figures of the run that found it and of the mapping, the shades, and what made the
/// program.
pub fn json(order: &Order, run: &Run, limit: usize) -> String {
    let shades: Vec<String> = (0..order.lines.len()).map(|number| format!("    {}", shade(order, number))).collect();
    let made = [("version", VERSION)].into_iter().chain(MADE);
    let made: Vec<String> = made.map(|(name, value)| format!("    {}", field(name, &string(value)))).collect();
    let fixed: Vec<String> = order.stock().map(|line| string(&line.hex())).collect();
    let fixed = (!fixed.is_empty()).then(|| ("fixed", format!("[{}]", fixed.join(", "))));
    let first = [
        ("picture", string(&order.name)),
        ("width", order.width.to_string()),
        ("height", order.height.to_string()),
        ("pixels", order.pixels().to_string()),
        ("colours", order.colours.to_string()),
        ("average", object(&COLOUR, &colour(order.average, "\""))),
        ("shades", order.lines.len().to_string()),
        ("in_use", order.in_use().to_string()),
        ("wanted_in_use", order.wanted_in_use.map_or("null".into(), |wanted| wanted.to_string())),
    ];
    let others = [
        ("limit", limit.to_string()),
        ("jancey", order.jancey.to_string()),
        ("rounds", order.rounds.to_string()),
        ("settled", order.settled.to_string()),
        ("distances", run.distances.to_string()),
        ("final_total", run.total.to_string()),
        ("error", order.error.to_string()),
        ("mean_square_error", order.mean()),
        ("order", format!("[\n{}\n  ]", shades.join(",\n"))),
        ("made", format!("{{\n{}\n  }}", made.join(",\n"))),
    ];
    let fields = first.into_iter().chain(fixed).chain(others);
    let fields: Vec<String> = fields.map(|(name, value)| format!("  {}", field(name, &value))).collect();
    format!("{{\n{}\n}}\n", fields.join(",\n"))
}

/// A shade as a JSON object in one line.
fn shade(order: &Order, number: usize) -> String {
    object(columns(order), &row(order, number, "\"", ["true", "false"]))
}

/// A JSON object in one line.
fn object(names: &[&str], values: &[String]) -> String {
    let fields: Vec<String> = names.iter().zip(values).map(|(name, value)| field(name, value)).collect();
    format!("{{{}}}", fields.join(", "))
}

/// A colour's values: its levels, and these as # and six hexadecimal digits, with the quotes that a text wants.
fn colour(levels: [u8; 3], quote: &str) -> [String; COLOUR.len()] {
    let [red, green, blue] = levels.map(|level| level.to_string());
    [red, green, blue, format!("{quote}{}{quote}", hex(levels))]
}

/// A shade's values in the order of the columns, with the quotes that a text wants and the words for what is so and
/// what is not.
fn row(order: &Order, number: usize, quote: &str, [yes, no]: [&str; 2]) -> Vec<String> {
    let line = &order.lines[number];
    let [red, green, blue, hex] = colour(line.levels, quote);
    let share = quotient(100 * line.pixels, order.pixels());
    let [used, stock] = [line.used(), line.stock].map(|holds| if holds { yes } else { no }.to_string());
    let mut row = vec![number.to_string(), red, green, blue, hex, line.pixels.to_string(), share, used, stock];
    row.truncate(columns(order).len());
    row
}

/// A JSON field.
fn field(name: &str, value: &str) -> String {
    format!("{}: {value}", string(name))
}

/// A text as a JSON string.
fn string(text: &str) -> String {
    let escaped = text.chars().map(|character| match character {
        '"' => "\\\"".into(),
        '\\' => "\\\\".into(),
        control if control.is_control() => format!("\\u{:04x}", u32::from(control)),
        other => other.to_string(),
    });
    format!("\"{}\"", escaped.collect::<String>())
}

#[cfg(test)]
mod tests {
    use super::string;

    #[test]
    fn strings_are_escaped() {
        assert_eq!(string("Läufer"), "\"Läufer\"");
        assert_eq!(string("a\"b\\c/d"), r#""a\"b\\c/d""#);
        assert_eq!(string("\0\n\x1f\x7f"), r#""\u0000\u000a\u001f\u007f""#);
    }
}
