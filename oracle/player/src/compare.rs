//! Compares the outcomes of two players, line by line.

use crate::parse::{sort, Sort};
use crate::reader::{is_skipped, next_line};
use std::fmt;
use std::io::{self, BufRead, Write};

/// How many differing lines are shown.
const SHOWN: u64 = 5;

/// What was compared: every line with an outcome is one of the first three.
#[derive(Clone, Copy, PartialEq, Eq, Debug, Default)]
pub struct Compared {
    pub calls: u64,
    pub set_up: u64,
    pub bad: u64,
    /// Lines whose outcomes differ, and what goes on after the last line.
    pub differences: u64,
}

impl Compared {
    /// Counts a line.
    fn add(&mut self, line: &[u8]) {
        match sort(line) {
            Sort::Call => self.calls += 1,
            Sort::SetUp => self.set_up += 1,
            Sort::Bad => self.bad += 1,
        }
    }
}

impl fmt::Display for Compared {
    fn fmt(&self, f: &mut fmt::Formatter) -> fmt::Result {
        let Compared {
            calls,
            set_up,
            bad,
            differences,
        } = self;
        write!(
            f,
            "{calls} calls, {differences} differences; {set_up} set-up lines and {bad} bad lines beside the calls"
        )
    }
}

/// The outcomes of one player, one line of the script at a time.
struct Outcomes<R> {
    input: R,
    line: Vec<u8>,
    more: bool,
}

impl<R: BufRead> Outcomes<R> {
    fn new(input: R) -> io::Result<Self> {
        let mut outcomes = Outcomes {
            input,
            line: Vec::new(),
            more: true,
        };
        outcomes.step()?;
        Ok(outcomes)
    }

    /// Outcome lines have no limit: a buffer may be long.
    fn step(&mut self) -> io::Result<()> {
        self.line.clear();
        self.more = self.input.read_until(b'\n', &mut self.line)? > 0;
        Ok(())
    }

    /// The outcome that stands next, if it is the one of script line `number`.
    fn take(&mut self, number: u64, outcome: &mut Vec<u8>) -> io::Result<()> {
        outcome.clear();
        if !self.more || self.line != format!("> {number}\n").as_bytes() {
            return Ok(());
        }
        loop {
            outcome.extend_from_slice(&self.line);
            self.step()?;
            if !self.more || self.line.starts_with(b"> ") {
                return Ok(());
            }
        }
    }
}

/// Writes what it finds; true where both have the same outcome for each line of
/// the script, and nothing else.
pub fn compare(
    script: impl BufRead,
    ours: impl BufRead,
    theirs: impl BufRead,
    out: &mut impl Write,
) -> io::Result<bool> {
    let compared = differences(script, ours, theirs, out)?;
    writeln!(out, "{compared}")?;
    Ok(compared.differences == 0)
}

/// Writes the first differences, and counts.
pub fn differences(
    mut script: impl BufRead,
    ours: impl BufRead,
    theirs: impl BufRead,
    out: &mut impl Write,
) -> io::Result<Compared> {
    let (mut ours, mut theirs) = (Outcomes::new(ours)?, Outcomes::new(theirs)?);
    let (mut line, mut our, mut their) = (Vec::new(), Vec::new(), Vec::new());
    let (mut number, mut compared) = (0, Compared::default());
    while next_line(&mut script, &mut line)? {
        number += 1;
        if is_skipped(&line) {
            continue;
        }
        compared.add(&line);
        ours.take(number, &mut our)?;
        theirs.take(number, &mut their)?;
        if our == their && !our.is_empty() {
            continue;
        }
        compared.differences += 1;
        if compared.differences <= SHOWN {
            writeln!(out, "line {number}: {}", String::from_utf8_lossy(&line))?;
            show(out, "ours", &our)?;
            show(out, "theirs", &their)?;
        }
    }
    for (name, rest) in [
        ("ours", ours.more.then_some(&ours.line)),
        ("theirs", theirs.more.then_some(&theirs.line)),
    ] {
        if let Some(line) = rest {
            compared.differences += 1;
            writeln!(
                out,
                "{name} goes on at: {}",
                String::from_utf8_lossy(line).trim_end()
            )?;
        }
    }
    Ok(compared)
}

fn show(out: &mut impl Write, name: &str, outcome: &[u8]) -> io::Result<()> {
    if outcome.is_empty() {
        return writeln!(out, "  {name}: no outcome of this line");
    }
    writeln!(out, "  {name}:")?;
    for line in String::from_utf8_lossy(outcome).lines().skip(1) {
        writeln!(out, "    {line}")?;
    }
    Ok(())
}
