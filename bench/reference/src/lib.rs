//! The rules of the board in plain Rust, to hold another program's answers against, and a generator of scripts.

pub mod board;
pub mod bus;
pub mod cards;
pub mod dma;
pub mod fault;
pub mod generator;
pub mod journal;
pub mod memory;
pub mod player;
pub mod report;
pub mod script;
pub mod timer;
