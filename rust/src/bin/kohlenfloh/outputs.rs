//! What each output holds.
use std::io::{self, Write};

use crate::order::Order;
use crate::svg;
use crate::tables;
use crate::work::Work;

/// An output of the program.
#[derive(Clone, Copy, PartialEq, Eq)]
pub enum Output {
    /// The index picture.
    Index,
    /// The palette as a picture.
    Palette,
    /// The picture in its shades.
    Preview,
    /// The order sheet as a drawing.
    Sheet,
    /// The order as a table for spreadsheets.
    Csv,
    /// The order and its figures for other programs.
    Json,
    /// The order sheet as text, for which there is no option.
    Text,
}

impl Output {
    /// Each option that asks for an output.
    pub const OPTIONS: [(&str, Output); 6] = [
        ("--index", Output::Index),
        ("--palette", Output::Palette),
        ("--preview", Output::Preview),
        ("--sheet", Output::Sheet),
        ("--csv", Output::Csv),
        ("--json", Output::Json),
    ];

    /// The output that an option asks for.
    pub fn of_option(option: &str) -> Option<Output> {
        Output::OPTIONS.iter().find(|(name, _)| *name == option).map(|(_, output)| *output)
    }

    /// What messages call the output: its option.
    pub fn name(self) -> &'static str {
        Output::OPTIONS.iter().find(|(_, output)| *output == self).map_or("the order sheet", |(name, _)| name)
    }
}

/// All that outputs tell of.
pub struct Answer<'a> {
    /// What was found of the picture.
    pub work: Work<'a>,
    /// The order for it.
    pub order: Order,
    /// The round limit in force.
    pub limit: usize,
}

impl Answer<'_> {
    /// Writes what an output holds.
    pub fn write(&self, output: Output, to: &mut dyn Write) -> io::Result<()> {
        let Answer { work, order, limit } = self;
        let (width, height) = (work.picture.width(), work.picture.height());
        match output {
            Output::Index => {
                header("P5", width, height, to)?;
                to.write_all(&work.index)
            }
            Output::Palette => {
                header("P6", work.palette.count(), 1, to)?;
                to.write_all(work.palette.bytes())
            }
            Output::Preview => {
                header("P6", width, height, to)?;
                preview(work, to)
            }
            Output::Sheet => to.write_all(svg::drawing(work, order).as_bytes()),
            Output::Csv => to.write_all(tables::csv(order).as_bytes()),
            Output::Json => to.write_all(tables::json(order, &work.run, *limit).as_bytes()),
            Output::Text => to.write_all(order.sheet().as_bytes()),
        }
    }
}

/// Writes the header of a picture of depth 255.
fn header(kind: &str, width: usize, height: usize, to: &mut dyn Write) -> io::Result<()> {
    write!(to, "{kind}\n{width} {height}\n255\n")
}

/// Writes the shade of each pixel, row by row.
fn preview(work: &Work<'_>, to: &mut dyn Write) -> io::Result<()> {
    let levels: Vec<[u8; 3]> = work.palette.entries().collect();
    for row in work.index.chunks(work.picture.width()) {
        let row: Vec<u8> = row.iter().flat_map(|number| levels[usize::from(*number)]).collect();
        to.write_all(&row)?;
    }
    Ok(())
}
