//! Scripts for the command program, with the answers of the independent version of document 01.

pub mod script;
pub mod session;
pub mod tally;
