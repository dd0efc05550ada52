//! The proved library compared, call by call, with a plain model of document 01.
//!
//! `model` is the model, `library` the calls through the boundary, `make` makes inputs by chance, and each file of
//! `subjects` compares one subject; `bench` holds the two outcomes of a call side by side.
pub mod ask;
pub mod bench;
pub mod chance;
pub mod guarded;
pub mod library;
pub mod make;
pub mod model;
pub mod outcome;
pub mod points;
pub mod subjects;
