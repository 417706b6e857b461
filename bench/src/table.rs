//! What is measured, as Markdown: the part of docs/PERFORMANCE.md that `bench/run` writes.

use crate::count::Counts;
use crate::sizes::{Size, State};
use std::fmt::Write;

/// One line of the table.
pub struct Line<'a> {
    pub name: &'a str,
    pub counts: Counts,
    /// None where the original's calls are too short.
    pub time: Option<f64>,
}

/// The tables.
pub fn text(machine: &str, lines: &[Line], sizes: &[Size], states: &[State]) -> String {
    let mut text = String::new();
    let mut put = |line: String| writeln!(text, "{line}").unwrap();
    put(format!("Measured on: {machine}.\n"));
    put("| call | original, instructions | ours, instructions | ratio | time, ratio |".into());
    put("|---|---:|---:|---:|---:|".into());
    for line in lines {
        let Counts { original, ours } = line.counts;
        let ratio = ours as f64 / original as f64;
        let time = line
            .time
            .map_or("-".to_string(), |time| format!("{time:.2}"));
        put(format!(
            "| {} | {original} | {ours} | {ratio:.2} | {time} |",
            line.name
        ));
    }
    put(
        "\n### Code\n\nBytes of machine code of each measured function, with what was inlined into it, and of what ours share. What only the constructors need is left out.\n"
            .into(),
    );
    put("| function | original | ours |".into());
    put("|---|---:|---:|".into());
    for size in sizes {
        put(format!(
            "| {} | {} | {} |",
            size.name,
            shown(size.original),
            shown(size.ours)
        ));
    }
    let total = |side: fn(&Size) -> Option<u64>| sizes.iter().filter_map(side).sum::<u64>();
    let (original, ours) = (total(|size| size.original), total(|size| size.ours));
    put(format!("| all of these | {original} | {ours} |"));
    put("\n### State\n\nBytes in the caller's memory.\n".into());
    put("| what | original | ours |".into());
    put("|---|---:|---:|".into());
    for state in states {
        put(format!(
            "| {} | {} | {} |",
            state.name, state.original, state.ours
        ));
    }
    text
}

fn shown(size: Option<u64>) -> String {
    size.map_or("none".to_string(), |size| size.to_string())
}
