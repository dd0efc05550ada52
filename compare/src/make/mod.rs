//! Inputs made by chance: good ones with many ties, and damaged ones.
pub mod colours;
pub mod fixed;
pub mod header;
pub mod listing;
pub mod palettes;
pub mod shades;
pub mod table;
