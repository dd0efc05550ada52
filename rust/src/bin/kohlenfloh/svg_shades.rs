//! The shades on the drawn order sheet: a row for each, in one column or in two.
use crate::digits::grouped;
use crate::order::{Line, Order, NOT_USED, STOCK};
use crate::svg::{LEFT, RIGHT, ROOM, TOP};

/// The height of the columns' names.
const NAMES: usize = 30;

/// Where things stand in a row, from its left.
struct Row {
    /// The most height.
    height: usize,
    /// The size of what is written.
    font: usize,
    /// Where the number ends.
    number: usize,
    /// Where the swatch begins.
    swatch: usize,
    /// How wide the swatch is.
    swatch_width: usize,
    /// Where the hexadecimal digits begin.
    hex: usize,
    /// Where the levels begin.
    levels: usize,
    /// Where the pixels end.
    pixels: usize,
    /// Where the share ends.
    share: usize,
    /// Where the bar begins.
    bar: usize,
    /// Where the row ends.
    end: usize,
}

/// A row that is as wide as the page.
const WIDE: Row = Row {
    height: 56,
    font: 15,
    number: 28,
    swatch: 48,
    swatch_width: 100,
    hex: 168,
    levels: 264,
    pixels: 468,
    share: 556,
    bar: 574,
    end: RIGHT - LEFT,
};

/// A row that is half as wide.
const NARROW: Row = Row {
    height: 40,
    font: 12,
    number: 22,
    swatch: 34,
    swatch_width: 34,
    hex: 75,
    levels: 130,
    pixels: 273,
    share: 330,
    bar: 338,
    end: (RIGHT - LEFT) / 2 - 10,
};

/// The most rows of a single column; more shades stand in two.
const MOST_WIDE: usize = 16;

/// The shades of an order, and how they are laid out.
pub struct Shades<'a> {
    order: &'a Order,
    row: &'static Row,
    rows: usize,
    row_height: usize,
}

impl<'a> Shades<'a> {
    /// The shades of an order in one column, or in two where they are many.
    pub fn of(order: &'a Order) -> Shades<'a> {
        let count = order.lines.len();
        let (row, rows) = if count <= MOST_WIDE { (&WIDE, count) } else { (&NARROW, count.div_ceil(2)) };
        Shades { order, row, rows, row_height: row.height.min((ROOM - NAMES) / rows) }
    }

    /// The height of all rows and the columns' names.
    pub fn height(&self) -> usize {
        NAMES + self.rows * self.row_height
    }

    /// The names and rows of each column.
    pub fn drawn(&self) -> String {
        let columns = self.order.lines.chunks(self.rows).enumerate();
        columns
            .map(|(column, lines)| {
                let left = LEFT + column * (RIGHT - LEFT - self.row.end);
                let first = column * self.rows;
                let rows: String = lines.iter().enumerate().map(|(row, line)| self.shade(first, row, line)).collect();
                let (font, names) = (self.row.font, self.names());
                format!(
                    r##"<g transform="translate({left} {TOP})" font-size="{font}">
{names}{rows}</g>
"##
                )
            })
            .collect()
    }

    /// The columns' names.
    fn names(&self) -> String {
        let Row { swatch, hex, levels, pixels, share, end, font, .. } = self.row;
        let rule = NAMES - 10;
        format!(
            r##"<g fill="#666666" font-size="{size}">
<text x="0" y="10">Shade</text>
<text x="{swatch}" y="10">Colour</text>
<text x="{hex}" y="10">Hex</text>
<text x="{levels}" y="10">R, G, B</text>
<text x="{pixels}" y="10" text-anchor="end">Pixels</text>
<text x="{share}" y="10" text-anchor="end">Share</text>
</g>
<path d="M0 {rule}H{end}" stroke="#999999"/>
"##,
            size = font - 2,
        )
    }

    /// A shade: number, swatch, levels, and what is to be bought of it.
    fn shade(&self, first: usize, row: usize, line: &Line) -> String {
        let Row { font, number, swatch, swatch_width, hex, levels, .. } = self.row;
        let [red, green, blue] = line.levels;
        let top = NAMES + row * self.row_height;
        let swatch_height = self.row_height - self.row_height / 5;
        let text = top + swatch_height / 2 + font / 3;
        format!(
            r##"<g>
<text x="{number}" y="{text}" text-anchor="end" font-weight="bold">{name}</text>
<rect x="{swatch}" y="{top}" width="{swatch_width}" height="{swatch_height}" fill="{code}" stroke="#999999"/>
{stock}<text x="{hex}" y="{text}" font-family="monospace">{code}</text>
<text x="{levels}" y="{text}">{red}, {green}, {blue}</text>
{amount}</g>
"##,
            name = first + row,
            code = line.hex(),
            stock = self.stock(line, text),
            amount = self.amount(line, top + swatch_height / 2, text),
        )
    }

    /// That a shade is from stock, written in the middle of its swatch, in black or in white, whichever shows.
    fn stock(&self, line: &Line, text: usize) -> String {
        if !line.stock {
            return String::new();
        }
        let Row { font, swatch, swatch_width, .. } = self.row;
        // How bright a colour looks, in thousandths of a level.
        let bright: u32 = line.levels.iter().zip([299, 587, 114]).map(|(level, part)| u32::from(*level) * part).sum();
        format!(
            r##"<text x="{middle}" y="{text}" text-anchor="middle" font-size="{size}" fill="{ink}">{STOCK}</text>
"##,
            middle = swatch + swatch_width / 2,
            size = font - 2,
            ink = if bright > 127_500 { "#000000" } else { "#ffffff" },
        )
    }

    /// Pixels, share and the share's bar about its middle; or that the shade is not used.
    fn amount(&self, line: &Line, middle: usize, text: usize) -> String {
        let Row { font, pixels, share, bar, end, .. } = self.row;
        if !line.used() {
            return format!(
                r##"<text x="{share}" y="{text}" text-anchor="end" fill="#666666">{NOT_USED}</text>
"##
            );
        }
        let greatest = self.order.lines.iter().map(|line| line.pixels).max().unwrap_or(line.pixels);
        format!(
            r##"<text x="{pixels}" y="{text}" text-anchor="end">{amount}</text>
<text x="{share}" y="{text}" text-anchor="end">{percent} %</text>
<rect x="{bar}" y="{top}" width="{width}" height="{font}" fill="{code}" stroke="#999999"/>
"##,
            amount = grouped(line.pixels),
            percent = self.order.share(line).replace('<', "&lt; "),
            top = middle - font / 2,
            width = ((end - bar) as u64 * line.pixels).div_ceil(greatest),
            code = line.hex(),
        )
    }
}
