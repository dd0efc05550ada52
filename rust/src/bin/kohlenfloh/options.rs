//! The command line.
use std::ffi::{OsStr, OsString};
use std::fmt;
use std::mem;
use std::os::unix::ffi::OsStrExt;
use std::path::PathBuf;

use crate::failure::Failure;
use crate::number::Number;
use crate::outputs::Output;
use crate::stock::Stock;

/// The option that gives the round limit.
const LIMIT: &str = "--limit";
/// The option that gives the shades in use.
const IN_USE: &str = "--in-use";
/// The option that has shades move by Jancey's rule.
const JANCEY: &str = "--jancey";
/// The option that gives shades from stock.
const FIXED: &str = "--fixed";

/// What the command line asks for.
pub enum Request {
    /// The shades of a picture.
    Shades(Options),
    /// The help text.
    Help,
    /// The version.
    Version,
}

/// What is asked of a picture.
pub struct Options {
    /// How many shades.
    pub wanted: Wanted,
    /// The round limit; 0 where none is given.
    pub limit: Number,
    /// Whether shades move by Jancey's rule; none is fixed then.
    pub jancey: bool,
    /// The shades that are fixed.
    pub fixed: Stock,
    /// The picture's file; none for standard input.
    pub picture: Option<PathBuf>,
    /// The outputs, each with its file; none for standard output, to which exactly one of them goes.
    pub outputs: Vec<(Output, Option<PathBuf>)>,
}

impl Options {
    /// What has to stand behind `shades` for the same run of another picture.
    pub fn run(&self) -> String {
        let Options { wanted, jancey, fixed, .. } = self;
        let jancey = if *jancey { format!(" {JANCEY}") } else { String::new() };
        let fixed = if fixed.shades().is_empty() { String::new() } else { format!(" {FIXED} {fixed}") };
        format!("{wanted}{jancey}{fixed}")
    }
}

/// How many shades are wanted. It prints as it is asked for.
pub enum Wanted {
    /// So many shades.
    Count(Number),
    /// So many that the picture uses, of as few as can be.
    InUse(Number),
}

impl Wanted {
    /// The number that is asked for.
    pub fn number(&self) -> &Number {
        let (Wanted::Count(number) | Wanted::InUse(number)) = self;
        number
    }
}

impl fmt::Display for Wanted {
    fn fmt(&self, to: &mut fmt::Formatter<'_>) -> fmt::Result {
        match self {
            Wanted::Count(number) => write!(to, "{number}"),
            Wanted::InUse(number) => write!(to, "{IN_USE} {number}"),
        }
    }
}

/// The arguments of `shades` as far as they are read.
#[derive(Default)]
struct Given {
    limit: Option<Number>,
    in_use: Option<Number>,
    jancey: bool,
    fixed: Option<Stock>,
    outputs: Vec<(Output, Option<PathBuf>)>,
    names: Vec<OsString>,
}

/// Reads the arguments that follow the program's name.
pub fn read(mut arguments: impl Iterator<Item = OsString>) -> Result<Request, Failure> {
    let command = arguments.next().ok_or_else(|| usage("no command is given"))?;
    if command == "shades" {
        return read_shades(arguments);
    }
    let (option, value) = parts(&command);
    alone(&option, value)?.ok_or_else(|| usage(format!("there is no command {}", command.display())))
}

/// Reads the arguments of `shades`: options and names in any order, and names alone behind `--`.
fn read_shades(mut arguments: impl Iterator<Item = OsString>) -> Result<Request, Failure> {
    let mut given = Given::default();
    while let Some(argument) = arguments.next() {
        if argument == "--" {
            given.names.extend(arguments.by_ref());
        } else if begins_as_options_do(&argument) {
            let (option, value) = parts(&argument);
            if let Some(request) = alone(&option, value)? {
                return Ok(request);
            }
            given.take(&option, value, &mut arguments)?;
        } else {
            given.names.push(argument);
        }
    }
    given.options().map(Request::Shades)
}

impl Given {
    /// Takes an option with its value, where it has one: the one behind its `=`, or the argument that follows.
    fn take(
        &mut self,
        option: &str,
        value: Option<&OsStr>,
        arguments: &mut impl Iterator<Item = OsString>,
    ) -> Result<(), Failure> {
        if option == JANCEY {
            without_value(option, value)?;
            return once(mem::replace(&mut self.jancey, true), option);
        }
        if option == FIXED {
            let stock = Stock::read(&value_of(option, value, arguments)?);
            let stock = stock.map_err(|why| usage(format!("{option} {why}")))?;
            return once(self.fixed.replace(stock).is_some(), option);
        }
        if let Some((place, what)) = self.number_of(option) {
            let number = Number::read(&value_of(option, value, arguments)?);
            let number = number.ok_or_else(|| usage(format!("{option} wants a whole number of {what}")))?;
            return once(place.replace(number).is_some(), option);
        }
        let output = Output::of_option(option).ok_or_else(|| usage(format!("there is no option {option}")))?;
        once(self.outputs.iter().any(|(other, _)| *other == output), option)?;
        let value = match value {
            Some(value) => value.into(),
            None => following_file(option, arguments)?,
        };
        if value.is_empty() {
            return Err(usage(format!("{option} wants the name of a file")));
        }
        let path = Some(PathBuf::from(value)).filter(|path| path.as_os_str() != "-");
        if path.is_none() && self.uses_standard_output() {
            return Err(usage("two outputs cannot both be standard output"));
        }
        self.outputs.push((output, path));
        Ok(())
    }

    /// Where the number of an option belongs, and what it counts; none for an option that has no number.
    fn number_of(&mut self, option: &str) -> Option<(&mut Option<Number>, &'static str)> {
        match option {
            LIMIT => Some((&mut self.limit, "rounds")),
            IN_USE => Some((&mut self.in_use, "shades")),
            _ => None,
        }
    }

    /// Whether an output goes to standard output.
    fn uses_standard_output(&self) -> bool {
        self.outputs.iter().any(|(_, path)| path.is_none())
    }

    /// What is asked of the picture. The names are the count, where --in-use does not stand for it, and the picture
    /// where one is named. The order sheet goes to standard output where nothing else does.
    fn options(mut self) -> Result<Options, Failure> {
        if self.jancey && self.fixed.is_some() {
            return Err(usage(format!("{JANCEY} and {FIXED} cannot both be given")));
        }
        if !self.uses_standard_output() {
            self.outputs.push((Output::Text, None));
        }
        let in_use = self.in_use.is_some();
        let mut names = self.names.into_iter();
        let wanted = match self.in_use {
            Some(number) => Wanted::InUse(number),
            None => Wanted::Count(count_of(names.next())?),
        };
        let picture = names.next();
        if let Some(more) = names.next() {
            if in_use && picture.is_some_and(|name| Number::read(&name).is_some()) {
                return Err(usage("K and --in-use cannot both be given"));
            }
            return Err(usage(format!("one picture is read, and {} is one too many", more.display())));
        }
        let picture = picture.filter(|name| name != "-").map(PathBuf::from);
        let (limit, fixed) = (self.limit.unwrap_or(Number::ZERO), self.fixed.unwrap_or_default());
        Ok(Options { wanted, limit, jancey: self.jancey, fixed, picture, outputs: self.outputs })
    }
}

/// The count of shades that a name is.
fn count_of(name: Option<OsString>) -> Result<Number, Failure> {
    let name = name.ok_or_else(|| usage("K, the number of shades, is missing"))?;
    let number = Number::read(&name);
    number.ok_or_else(|| usage(format!("K, the number of shades, is not a whole number: {}", name.display())))
}

/// What an option asks for that stands for itself, such as --help; none for every other option.
fn alone(option: &str, value: Option<&OsStr>) -> Result<Option<Request>, Failure> {
    let request = match option {
        "--help" | "-h" => Request::Help,
        "--version" | "-V" => Request::Version,
        _ => return Ok(None),
    };
    without_value(option, value).map(|()| Some(request))
}

/// Refuses a value of an option that takes none.
fn without_value(option: &str, value: Option<&OsStr>) -> Result<(), Failure> {
    match value {
        Some(_) => Err(usage(format!("{option} takes no value"))),
        None => Ok(()),
    }
}

/// Whether an argument is read as an option. A single `-` is a name.
fn begins_as_options_do(argument: &OsStr) -> bool {
    argument.as_bytes().starts_with(b"-") && argument != "-"
}

/// An option's name, and the value that stands behind its `=`.
fn parts(argument: &OsStr) -> (String, Option<&OsStr>) {
    let bytes = argument.as_bytes();
    let equals = bytes.iter().position(|byte| *byte == b'=').filter(|_| bytes.starts_with(b"--"));
    let name = OsStr::from_bytes(&bytes[..equals.unwrap_or(bytes.len())]);
    (name.to_string_lossy().into(), equals.map(|place| OsStr::from_bytes(&bytes[place + 1..])))
}

/// An option's value: the one behind its `=`, or the argument that follows.
fn value_of(
    option: &str,
    value: Option<&OsStr>,
    arguments: &mut impl Iterator<Item = OsString>,
) -> Result<OsString, Failure> {
    value.map_or_else(|| following(option, arguments), |value| Ok(value.into()))
}

/// The argument that follows an option.
fn following(option: &str, arguments: &mut impl Iterator<Item = OsString>) -> Result<OsString, Failure> {
    arguments.next().ok_or_else(|| usage(format!("nothing follows {option}")))
}

/// The file's name that follows an option. One that could be an option has to stand behind `=`.
fn following_file(option: &str, arguments: &mut impl Iterator<Item = OsString>) -> Result<OsString, Failure> {
    let value = following(option, arguments)?;
    if !begins_as_options_do(&value) {
        return Ok(value);
    }
    let (name, _) = parts(&value);
    let known = [LIMIT, IN_USE, JANCEY, FIXED].contains(&&*name)
        || Output::of_option(&name).is_some()
        || !matches!(alone(&name, None), Ok(None));
    let what = if known { "is an option" } else { "begins as options do" };
    let value = value.display();
    Err(usage(format!("{option} wants the name of a file, and {value} {what}; write {option}={value} if it is a file")))
}

/// Refuses an option that was met before.
fn once(met: bool, option: &str) -> Result<(), Failure> {
    if met {
        return Err(usage(format!("{option} is given twice")));
    }
    Ok(())
}

/// A wrong command line.
fn usage(why: impl Into<String>) -> Failure {
    Failure::Usage(why.into())
}
