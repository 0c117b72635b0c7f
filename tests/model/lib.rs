//! The executive of document 01 a second time, written from the paper alone, and what the programs over it share.

pub mod bench;
pub mod blocks;
pub mod cards;
pub mod check;
pub mod configuration;
pub mod ending;
pub mod faults;
pub mod image;
pub mod mend;
mod mend_cards;
pub mod mixes;
pub mod records;
mod refusals;
pub mod runs;
pub mod scan;
pub mod steps;
pub mod table;
pub mod why;
