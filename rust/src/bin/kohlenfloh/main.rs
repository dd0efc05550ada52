//! The command `kohlenfloh`: the shades of a full-size picture, as an order sheet and as files.
//!
//! Table, shades, palette and index picture come from the proved library. This program reads, adds up the errors of the
//! strips, counts index bytes, divides where it rounds, prints and draws.
mod base64;
mod clashes;
mod digits;
mod failure;
mod files;
mod header;
mod help;
mod in_use;
mod input;
mod kinds;
mod meaning;
mod names;
mod number;
mod options;
mod order;
mod outputs;
mod places;
mod png;
mod progress;
mod remedy;
mod replaced;
mod signals;
mod stock;
mod svg;
mod svg_shades;
mod tables;
mod temporary;
mod thumbnail;
mod twins;
mod work;

use std::io::{self, Write};
use std::process::ExitCode;

use kohlenfloh::RunOptions;

use failure::Failure;
use options::{Options, Request};
use order::Order;
use outputs::Answer;

/// Does what the command line asks, and ends with 0 or with the failure's status.
fn main() -> ExitCode {
    let done = options::read(std::env::args_os().skip(1)).and_then(|request| match request {
        Request::Help => files::print(help::help().as_bytes()),
        Request::Version => files::print(help::version().as_bytes()),
        Request::Shades(options) => shades(&options),
    });
    match done {
        Ok(()) => ExitCode::SUCCESS,
        Err(failure) => {
            // Where standard error cannot be written, the status alone has to tell.
            let _ = writeln!(io::stderr(), "kohlenfloh: {failure}");
            ExitCode::from(failure.status())
        }
    }
}

/// Finds the shades of a picture, and writes the outputs asked for, of which the order sheet is one.
fn shades(options: &Options) -> Result<(), Failure> {
    clashes::check(options)?;
    let picture = options.picture.as_deref();
    let bytes = input::read(picture)?;
    let work = work::find_shades(&input::path_of(picture).to_string_lossy(), &bytes, options)?;
    let order = Order::of(input::name(picture), &work, options);
    let limit = if options.limit.value == 0 { RunOptions::USUAL_LIMIT } else { options.limit.value };
    let answer = Answer { work, order, limit };
    files::write_all(&options.outputs, |output, to| answer.write(output, to))
}
