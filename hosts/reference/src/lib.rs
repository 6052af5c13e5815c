//! Channel rule tables in plain Rust.
//!
//! A second version of document 01 with document 02's F-1, F-2, F-5, F-6, F-7, F-9, F-12 and F-14, written from the papers alone and sharing
//! no code with the proved crates, so that the two can be compared. The doc comments quote the sentence of document 01 or 02 that an item renders.
//!
//! Each module has a typed layer (checked set-ups, rules and tables) and, where document 01 lends memory, calls on plain
//! bytes that test every refusal in the order of document 01.

pub mod channel_file;
pub mod characteristic;
pub mod formula;
pub mod generate;
mod refusal;
pub mod render;
pub mod table;
pub mod tool;
pub mod trial;
pub mod values;

pub use refusal::Refusal;
