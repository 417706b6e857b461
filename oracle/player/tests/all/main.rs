//! The player's tests, in one program, so that there is one to link.

mod agreement;
mod bench_rows;
mod common;
mod compare;
mod grammar;
mod parked;
mod refusals;
mod registers;
mod walk;
