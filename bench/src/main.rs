//! Measures the original driver and the Rattle module on the same calls.
//! `bench/run` runs it twice: under callgrind to count, and then to time and write.

mod both;
mod called;
mod count;
mod original;
mod ours;
mod page;
mod plot;
mod rows;
mod script;
mod sizes;
mod table;
mod time;

use both::Both;
use count::Counts;
use rows::Curve;
use script::Row;
use std::env::args;
use std::fs::{read_to_string, write};
use std::path::Path;

const USAGE: &str = "bench count | bench write COUNTS ORIGINAL-SYMBOLS OUR-SYMBOLS PAGE PLOT";

fn main() {
    let words: Vec<String> = args().skip(1).collect();
    let words: Vec<&str> = words.iter().map(String::as_str).collect();
    let mut table = rows::calls();
    table.extend(rows::waits());
    let curves = rows::curves();
    let points = curves.iter().flat_map(|curve| &curve.points);
    let all: Vec<&Row> = table.iter().chain(points.map(|(_, row)| row)).collect();
    match words[..] {
        ["count"] => count::run(&all),
        ["write", counts, original, ours, page, to_plot] => {
            let counts = count::read(Path::new(counts), all.len());
            let (rows, points) = counts.split_at(table.len());
            let sizes = sizes::code(&listing(original), &listing(ours));
            let text = table::text(&machine(), &lines(&table, rows), &sizes, &sizes::state());
            write(page, page::with(&listing(page), &text)).expect("the table is written");
            write(to_plot, plot::svg(&panels(&curves, points))).expect("the plot is written");
        }
        _ => {
            eprintln!("{USAGE}");
            std::process::exit(2);
        }
    }
}

fn listing(file: &str) -> String {
    read_to_string(file).unwrap_or_else(|_| panic!("no file {file}"))
}

/// The rows with their counts, and timed.
fn lines<'a>(rows: &'a [Row], counts: &[Counts]) -> Vec<table::Line<'a>> {
    let mut both = Both::new();
    let mut line = |(row, counts): (&'a Row, &Counts)| table::Line {
        name: &row.name,
        counts: *counts,
        time: time::ratio(&mut both, row),
    };
    rows.iter().zip(counts).map(&mut line).collect()
}

/// The curves with their counts, in panels.
fn panels(curves: &[Curve], counts: &[Counts]) -> Vec<plot::Panel> {
    let mut counts = counts.iter();
    let mut drawn = curves.iter().map(|curve| plot::Drawn {
        name: curve.name,
        points: curve
            .points
            .iter()
            .map(|(at, _)| *at)
            .zip(counts.by_ref().copied())
            .collect(),
    });
    let mut panel = |title, along, curves| plot::Panel {
        title,
        along,
        curves: drawn.by_ref().take(curves).collect(),
    };
    vec![
        panel("Non-blocking: a write and its checks", "bytes", 1),
        panel("Blocking", "bytes", 2),
        panel("Blocking: a wait that spins", "words with no flag", 1),
    ]
}

/// The processor, as the system names it.
fn machine() -> String {
    let text = read_to_string("/proc/cpuinfo").unwrap_or_default();
    let line = text
        .lines()
        .find_map(|line| line.strip_prefix("model name"));
    let name = line.and_then(|line| line.split_once(": "));
    name.map_or("an unnamed processor".to_string(), |(_, name)| {
        name.to_string()
    })
}
