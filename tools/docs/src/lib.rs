//! What the documents say of the crates, held against the crates.
//!
//! `floors` reads crates.txt, `picture` draws its floors, `readme` holds README.md to both. `promises` reads the
//! citations of docs/PROMISES.md and looks each up in what `declared` finds in the crates' files. `tables` takes a
//! Markdown text apart, `tree` has the project's files, and `check` makes one list of it all.
pub mod check;
pub mod declared;
pub mod floors;
pub mod picture;
pub mod promises;
pub mod readme;
pub mod tables;
pub mod tree;
