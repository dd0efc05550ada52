//! The order: what is to be bought for a picture, and the sheet that says so.
use std::fmt::Write;

use kohlenfloh::{made, RunOptions};

use crate::digits::{percent, quotient};
use crate::help::MADE;
use crate::options::{Options, Wanted};
use crate::work::Work;

/// What is said of a shade that no pixel has.
pub const NOT_USED: &str = "not used, buy nothing";

/// What is said of a fixed shade.
pub const STOCK: &str = "stock";

/// What the order sheet tells, in words and as a drawing.
pub struct Order {
    /// What the picture is called.
    pub name: String,
    /// Pixels in a row.
    pub width: usize,
    /// Rows.
    pub height: usize,
    /// Colours of the picture.
    pub colours: usize,
    /// Its average colour, in whole levels R, G, B.
    pub average: [u8; 3],
    /// Rounds made.
    pub rounds: usize,
    /// Whether they were made by Jancey's rule.
    pub jancey: bool,
    /// Whether the last round moved no shade.
    pub settled: bool,
    /// The mapping's error.
    pub error: u64,
    /// How many shades in use were asked for; none where a count of shades was.
    pub wanted_in_use: Option<usize>,
    /// A line for each shade, in the order of the numbers.
    pub lines: Vec<Line>,
}

/// One shade of an order.
pub struct Line {
    /// The shade in whole levels R, G, B.
    pub levels: [u8; 3],
    /// The pixels mapped to it.
    pub pixels: u64,
    /// Whether it is fixed from stock.
    pub stock: bool,
}

impl Line {
    /// The shade as # and six hexadecimal digits.
    pub fn hex(&self) -> String {
        hex(self.levels)
    }

    /// Whether a pixel has this shade.
    pub fn used(&self) -> bool {
        self.pixels > 0
    }

    /// What stands behind the shade on the sheet: that it is from stock, and that no pixel has it.
    fn marks(&self) -> String {
        let marks = [(self.stock, STOCK), (!self.used(), NOT_USED)];
        let marks: Vec<&str> = marks.iter().filter(|(holds, _)| *holds).map(|(_, mark)| *mark).collect();
        if marks.is_empty() {
            return String::new();
        }
        format!("  {}", marks.join(", "))
    }
}

impl Order {
    /// The order for a picture. The pixels of each shade are counted from the index picture.
    pub fn of(name: String, work: &Work<'_>, options: &Options) -> Order {
        let shades = work.palette.entries().enumerate();
        let mut lines: Vec<Line> =
            shades.map(|(number, levels)| Line { levels, pixels: 0, stock: number < work.run.fixed }).collect();
        for number in &work.index {
            lines[usize::from(*number)].pixels += 1;
        }
        Order {
            name,
            width: work.picture.width(),
            height: work.picture.height(),
            colours: work.colours,
            average: work.average,
            rounds: work.run.rounds,
            jancey: options.jancey,
            settled: work.run.settled,
            error: work.error,
            wanted_in_use: match &options.wanted {
                Wanted::Count(_) => None,
                Wanted::InUse(number) => Some(number.value),
            },
            lines,
        }
    }

    /// The pixels of all shades together.
    pub fn pixels(&self) -> u64 {
        self.lines.iter().map(|line| line.pixels).sum()
    }

    /// How many shades have a pixel.
    pub fn in_use(&self) -> usize {
        self.lines.iter().filter(|line| line.used()).count()
    }

    /// The fixed shades, which are the first.
    pub fn stock(&self) -> impl Iterator<Item = &Line> {
        self.lines.iter().filter(|line| line.stock)
    }

    /// How many shades have a pixel, in words, and how many are fixed where some are.
    pub fn use_in_words(&self) -> String {
        let stock = match self.stock().count() {
            0 => String::new(),
            fixed => format!("; {fixed} from stock"),
        };
        format!("{} of {} shades in use{stock}", self.in_use(), self.lines.len())
    }

    /// Why there are so many shades, where that was left to the program.
    fn reason(&self) -> String {
        let reason = |wanted| format!("; {} is the smallest count that uses {wanted}", self.lines.len());
        self.wanted_in_use.map(reason).unwrap_or_default()
    }

    /// How many rounds were made, and by which rule where it is not the usual one.
    pub fn rounds_in_words(&self) -> String {
        format!("{}{}", self.rounds, if self.jancey { ", by Jancey's rule" } else { "" })
    }

    /// Whether more rounds can be asked for, and may lower the error.
    pub fn may_go_on(&self) -> bool {
        !self.settled && self.rounds < RunOptions::MOST_ROUNDS
    }

    /// A shade's share of the pixels, in percent.
    pub fn share(&self, line: &Line) -> String {
        percent(line.pixels, self.pixels())
    }

    /// The error divided by the pixels.
    pub fn mean(&self) -> String {
        quotient(self.error, self.pixels())
    }

    /// The order sheet as text.
    pub fn sheet(&self) -> String {
        let mut text = self.figures();
        text.push_str("\nshade    R    G    B  hex        pixels  share %\n");
        for (number, line) in self.lines.iter().enumerate() {
            let [red, green, blue] = line.levels;
            let (hex, share) = (line.hex(), self.share(line));
            let marks = line.marks();
            writeln!(
                text,
                "{number:>5}  {red:>3}  {green:>3}  {blue:>3}  {hex}  {:>8}  {share:>7}{marks}",
                line.pixels
            )
            .expect("a string takes what is written");
        }
        text.push_str(
            "\nThe pixels of the shades sum to the picture's pixels. Each share, and the mean, is rounded by itself\n\
             to two digits by whole-number arithmetic, halves up; <0.01 is a share that is there, but smaller.\n\n",
        );
        text + &origin()
    }

    /// What the text says of the picture and of the run.
    fn figures(&self) -> String {
        let [red, green, blue] = self.average;
        format!(
            "picture            {}\n\
             width              {}\n\
             height             {}\n\
             pixels             {}\n\
             colours            {}\n\
             average colour     {red}  {green}  {blue}  {}\n\
             shades             {}{}\n\
             rounds             {}\n\
             settled            {}\n\
             error              {}\n\
             mean square error  {}\n",
            self.name,
            self.width,
            self.height,
            self.pixels(),
            self.colours,
            hex(self.average),
            self.use_in_words(),
            self.reason(),
            self.rounds_in_words(),
            self.settled_in_words(),
            self.error,
            self.mean(),
        )
    }

    /// Whether the last round moved no shade; where it did, what more rounds may do, and how they are asked for.
    fn settled_in_words(&self) -> String {
        let most = RunOptions::MOST_ROUNDS;
        if self.settled {
            "yes".into()
        } else if self.may_go_on() {
            format!("no: more rounds may lower the error, ask for them by --limit {most}")
        } else {
            format!("no, and {most} rounds are the most there can be")
        }
    }
}

/// A colour as # and six hexadecimal digits.
pub fn hex([red, green, blue]: [u8; 3]) -> String {
    format!("#{red:02x}{green:02x}{blue:02x}")
}

/// What made the sheet, so that it can be traced to the proved library behind it.
fn origin() -> String {
    let lines = MADE.map(|(name, value)| format!("{name:<19}{value}\n"));
    format!("made by            kohlenfloh {}\n{}", made::VERSION, lines.concat())
}

#[cfg(test)]
mod tests {
    use super::{Line, Order};

    #[test]
    fn the_most_rounds_are_told_as_such() {
        let (average, lines) = ([0; 3], vec![Line { levels: [0; 3], pixels: 1, stock: false }]);
        let (name, rounds, jancey, settled, wanted_in_use) = (String::new(), 200, false, false, None);
        let (width, height, colours, error) = (1, 1, 1, 0);
        let mut order =
            Order { name, width, height, colours, average, rounds, jancey, settled, error, wanted_in_use, lines };
        assert!(order.sheet().contains("\nsettled            no, and 200 rounds are the most there can be\n"));
        order.rounds = 199;
        assert!(order.sheet().contains("\nsettled            no: more rounds may lower the error, ask for them by"));
    }
}
