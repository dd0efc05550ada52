//! The order sheet as a drawing, for a buyer to look at and to print: SVG without scripts and without fonts from
//! elsewhere. It is as wide as an A4 page and at most as high, for any number of shades.
use kohlenfloh::{made, RunOptions};

use crate::digits::{grouped, quotient};
use crate::order::{hex, Order};
use crate::svg_shades::Shades;
use crate::thumbnail;
use crate::work::Work;

/// The units of a millimetre. All lengths here are in units.
const MILLIMETRE: usize = 4;
/// The drawing's width.
const WIDTH: usize = 210 * MILLIMETRE;
/// The height of a page.
const PAGE: usize = 297 * MILLIMETRE;
/// Where everything begins from the left.
pub const LEFT: usize = 32;
/// Where everything ends on the right.
pub const RIGHT: usize = WIDTH - LEFT;
/// Where the shades begin.
pub const TOP: usize = 336;
/// The height of what stands under the shades.
const FOOT: usize = 106;
/// The most height that the shades can have.
pub const ROOM: usize = PAGE - TOP - FOOT;
/// Where the figures begin.
const FIGURES: usize = 114;
/// The height of a figure's row.
const FIGURE_HEIGHT: usize = 28;
/// Where the numbers of the figures begin from the left.
const FIGURE_LEFT: usize = 176;
/// How wide the swatch of the average colour is.
const SWATCH_WIDTH: usize = 48;
/// Where the hexadecimal digits of the average colour begin from the left.
const AVERAGE_HEX: usize = FIGURE_LEFT + 60;
/// Where its levels begin.
const AVERAGE_LEVELS: usize = AVERAGE_HEX + 84;
/// The most width of the small picture, which ends on the right.
const PICTURE_WIDTH: usize = 320;
/// Where the small picture begins.
const PICTURE_TOP: usize = 94;
/// The most height of the small picture.
const PICTURE_HEIGHT: usize = 216;
/// The least side of the small picture, so that it is seen.
const PICTURE_LEAST: usize = 4;
/// The most room of a name in a row, by characters of the usual width.
const NAME_LENGTH: usize = 72;
/// How many digits of the sources' sum are told.
const SUM_LENGTH: usize = 16;

/// The whole drawing.
pub fn drawing(work: &Work<'_>, order: &Order) -> String {
    let shades = Shades::of(order);
    let bottom = TOP + shades.height();
    let height = bottom + FOOT;
    format!(
        r##"<svg xmlns="http://www.w3.org/2000/svg" xmlns:xlink="http://www.w3.org/1999/xlink"
 width="{page_width}mm" height="{page_height}mm" viewBox="0 0 {WIDTH} {height}"
 font-family="Helvetica, Arial, sans-serif" font-size="15" fill="#222222">
<title>Order sheet: {name}</title>
<rect width="{WIDTH}" height="{height}" fill="#ffffff"/>
{head}{picture}{shades}{foot}</svg>
"##,
        page_width = WIDTH / MILLIMETRE,
        page_height = quotient(height as u64, MILLIMETRE as u64),
        name = escaped(&order.name),
        head = head(order),
        picture = picture(work),
        shades = shades.drawn(),
        foot = foot(order, bottom),
    )
}

/// Title and figures.
fn head(order: &Order) -> String {
    let text = |figure: String| format!(r#"<text x="{FIGURE_LEFT}">{figure}</text>"#);
    let figures = [
        ("Size", text(format!("{} by {}", order.width, order.height))),
        ("Pixels", text(grouped(order.pixels()))),
        ("Colours", text(grouped(order.colours as u64))),
        ("Average colour", average(order.average)),
        ("Shades", text(order.use_in_words())),
        ("Rounds", text(rounds(order))),
        ("Error", text(grouped(order.error))),
        ("Mean square error", text(order.mean())),
    ];
    let figures = figures.iter().enumerate().map(|(row, (name, figure))| {
        let y = FIGURES + FIGURE_HEIGHT * row;
        format!(
            r##"<g transform="translate(0 {y})"><text x="{LEFT}" fill="#666666">{name}</text>{figure}</g>
"##
        )
    });
    format!(
        r##"<text x="{LEFT}" y="48" font-size="26" font-weight="bold">Order sheet</text>
<text x="{LEFT}" y="76" font-size="18">{name}</text>
{figures}"##,
        name = escaped(&shortened(&order.name)),
        figures = figures.collect::<String>(),
    )
}

/// The average colour as a shade's colour is shown: swatch, hexadecimal digits, levels.
fn average(levels: [u8; 3]) -> String {
    let ([red, green, blue], code) = (levels, hex(levels));
    format!(
        r##"
<rect x="{FIGURE_LEFT}" y="-14" width="{SWATCH_WIDTH}" height="18" fill="{code}" stroke="#999999"/>
<text x="{AVERAGE_HEX}" font-family="monospace">{code}</text>
<text x="{AVERAGE_LEVELS}">{red}, {green}, {blue}</text>"##
    )
}

/// Rounds made and their rule, whether the shades are settled, and under it, where they are not, what can be asked for.
fn rounds(order: &Order) -> String {
    let (rounds, most) = (order.rounds_in_words(), RunOptions::MOST_ROUNDS);
    if order.settled {
        return format!("{rounds}, settled");
    }
    let more = if order.may_go_on() {
        format!("more rounds may lower the error: ask for them by --limit {most}")
    } else {
        format!("{most} rounds are the most there can be")
    };
    format!(r##"{rounds}, not settled<tspan x="{FIGURE_LEFT}" dy="12" font-size="11" fill="#666666">{more}</tspan>"##)
}

/// The picture in its shades, small, in a thin frame.
fn picture(work: &Work<'_>) -> String {
    let small = thumbnail::of(work);
    let (width, height) = if small.width * PICTURE_HEIGHT > small.height * PICTURE_WIDTH {
        (PICTURE_WIDTH, small.height * PICTURE_WIDTH / small.width)
    } else {
        (small.width * PICTURE_HEIGHT / small.height, PICTURE_HEIGHT)
    };
    let (width, height) = (width.max(PICTURE_LEAST), height.max(PICTURE_LEAST));
    let place = format!(r#"x="{}" y="{PICTURE_TOP}" width="{width}" height="{height}""#, RIGHT - width);
    format!(
        r##"<image {place} preserveAspectRatio="none" image-rendering="pixelated"
 xlink:href="{address}"/>
<rect {place} fill="none" stroke="#999999"/>
"##,
        address = small.address,
    )
}

/// The sum of the pixels, how shares and bars are made, and what made the sheet.
fn foot(order: &Order, top: usize) -> String {
    format!(
        r##"<path d="M{LEFT} {top}H{RIGHT}" stroke="#999999"/>
<text x="{LEFT}" y="{sum}">All shades: <tspan font-weight="bold">{pixels}</tspan>, the pixels of the picture</text>
<g font-size="12" fill="#666666">
<text x="{LEFT}" y="{note}">Pixels are counted in the index picture. Each share is rounded by itself to two digits,
 halves up. The greatest share has the longest bar.</text>
<text x="{LEFT}" y="{origin}">kohlenfloh {version}, {toolchain}, proof {proof}, sources {sources:.SUM_LENGTH$}</text>
</g>
"##,
        sum = top + 26,
        note = top + 54,
        origin = top + 74,
        pixels = grouped(order.pixels()),
        version = made::VERSION,
        toolchain = escaped(made::TOOLCHAIN),
        proof = escaped(made::PROOF),
        sources = made::SOURCES,
    )
}

/// A name cut to what fits in a row. Characters of the scripts that are written wide take two places.
fn shortened(name: &str) -> String {
    let mut room = NAME_LENGTH;
    for (end, character) in name.char_indices() {
        let places = if character < '\u{1100}' { 1 } else { 2 };
        if places > room {
            return format!("{}…", &name[..end]);
        }
        room -= places;
    }
    name.into()
}

/// A text as it may stand in XML.
fn escaped(text: &str) -> String {
    text.chars()
        .map(|character| match character {
            '&' => "&amp;".into(),
            '<' => "&lt;".into(),
            '>' => "&gt;".into(),
            '"' => "&quot;".into(),
            '\'' => "&apos;".into(),
            '\u{fffe}' | '\u{ffff}' => char::REPLACEMENT_CHARACTER.into(),
            other => other.to_string(),
        })
        .collect()
}
