//! What may go wrong, told in words, with the exit status.
use std::fmt;
use std::io;
use std::path::PathBuf;

use kohlenfloh::Refusal;

use crate::help;
use crate::in_use::Unmet;
use crate::names::shown;

/// Why the program ends without having done what was asked.
pub enum Failure {
    /// The command line is wrong.
    Usage(String),
    /// The picture cannot be read.
    Unreadable { path: PathBuf, why: io::Error },
    /// An output cannot be written.
    Unwritable { path: PathBuf, why: io::Error },
    /// The library refuses.
    Refused { name: String, refusal: Refusal, meaning: String },
    /// No count of shades gives a picture that uses as many as are wanted.
    Unmet { name: String, unmet: Unmet },
}

impl Failure {
    /// The exit status: the refusal's number, or that of the kind of failure.
    pub fn status(&self) -> u8 {
        match self {
            Failure::Usage(_) => 64,
            Failure::Unmet { .. } => 65,
            Failure::Unreadable { .. } => 66,
            Failure::Unwritable { .. } => 73,
            Failure::Refused { refusal: Refusal::Unknown { .. }, .. } => 70,
            Failure::Refused { refusal, .. } => refusal.number() as u8,
        }
    }
}

/// The failure in words, without the program's name. What a user gave is shown as names are.
impl fmt::Display for Failure {
    fn fmt(&self, to: &mut fmt::Formatter<'_>) -> fmt::Result {
        match self {
            Failure::Usage(why) => write!(to, "{}\n{}", shown(why), help::USAGE),
            Failure::Unreadable { path, why } => write!(to, "cannot read {}: {why}", shown(path)),
            Failure::Unwritable { path, why } => write!(to, "cannot write {}: {why}", shown(path)),
            Failure::Refused { name, refusal, meaning } => {
                write!(to, "{}: refused {} {}: {meaning}", shown(name), refusal.number(), refusal.name())
            }
            Failure::Unmet { name, unmet } => write!(to, "{}: {unmet}", shown(name)),
        }
    }
}

#[cfg(test)]
mod tests {
    use super::{Failure, Refusal};

    #[test]
    fn a_refusal_ends_by_its_number_and_an_unknown_one_by_70() {
        let status = |refusal| Failure::Refused { name: String::new(), refusal, meaning: String::new() }.status();
        assert_eq!(status(Refusal::BadStrip), 1);
        assert_eq!(status(Refusal::BadRaster), 15);
        assert_eq!(status(Refusal::TwinShade { lower: 1, higher: 3 }), 18);
        for number in [256, 1000, u32::MAX] {
            assert_eq!(status(Refusal::Unknown { number }), 70);
        }
    }
}
