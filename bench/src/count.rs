//! Instructions of each side of each row: what callgrind wrote at the marks.

use crate::both::{bench_mark, Both};
use crate::script::Row;
use std::fs::read_to_string;
use std::path::Path;

/// Instructions of the original and of ours.
#[derive(Clone, Copy)]
pub struct Counts {
    pub original: u64,
    pub ours: u64,
}

/// Marks for each row: one before it, one after the original, one after ours.
const MARKS: usize = 3;

/// Runs each row for callgrind, once compared and once counted.
pub fn run(rows: &[&Row]) {
    let mut both = Both::new();
    for row in rows {
        both.compare(row);
        both.set(row);
        bench_mark();
        both.run_original(row, 1);
        bench_mark();
        both.run_ours(row, 1);
        bench_mark();
    }
}

/// The counts of so many rows, from the files `counts.1`, `counts.2` and so on of a folder.
pub fn read(folder: &Path, rows: usize) -> Vec<Counts> {
    let at = |mark: usize| {
        let file = folder.join(format!("counts.{mark}"));
        let text = read_to_string(&file).unwrap_or_else(|_| panic!("no file {}", file.display()));
        total(&text).unwrap_or_else(|| panic!("no total in {}", file.display()))
    };
    let row = |row: usize| Counts {
        original: at(MARKS * row + 2),
        ours: at(MARKS * row + 3),
    };
    (0..rows).map(row).collect()
}

fn total(text: &str) -> Option<u64> {
    let line = text.lines().find_map(|line| line.strip_prefix("totals: "));
    line?.trim().parse().ok()
}
