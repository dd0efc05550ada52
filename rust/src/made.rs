//! What made this build: names by which a result can be traced to the proved library behind it.

/// The version of the crate and of the library.
pub const VERSION: &str = env!("CARGO_PKG_VERSION");

/// The Rattle toolchain that proved and compiled the library, by the line with which it names itself.
pub const TOOLCHAIN: &str = env!("KOHLENFLOH_TOOLCHAIN");

/// The sum that the toolchain prints beside its verdict on the library: that of the logic it proved it in.
pub const PROOF: &str = env!("KOHLENFLOH_PROOF");

/// The SHA-256 sum of the proved sources: every file of every crate that the library stands on.
pub const SOURCES: &str = env!("KOHLENFLOH_SOURCES");
