//! The jobs, each raced on each picture. The proved library is called by the crate's functions on slices, in memory
//! that is lent and written before the clock starts.
pub mod colours;
pub mod kinds;
pub mod mapping;
pub mod palettes;
pub mod rounds;
pub mod tables;

/// What is said where the proved library refuses a job.
pub const ACCEPTED: &str = "no job is refused";
