//! The player over the original Rust, the drawing of scripts and the comparing
//! of outcomes. `GRAMMAR.md` gives the text format.

pub mod answer;
pub mod call;
pub mod compare;
mod config;
pub mod cuts;
pub mod draw;
pub mod exhaust;
mod lexis;
mod link;
pub mod parse;
pub mod player;
mod random;
pub mod reader;
mod refusals;
mod run;
pub mod sample;
mod unwaited;
mod waiting;
