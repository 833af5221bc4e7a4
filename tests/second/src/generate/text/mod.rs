//! Texts, sound and otherwise: `lines` has the words that all of them are made of.

pub mod lines;
pub mod pages;
pub mod range;
pub mod slip;
pub mod wide;
