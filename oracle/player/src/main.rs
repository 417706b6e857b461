//! `oracle play`, `expect`, `draw`, `exhaust`, `sample` and `compare`: see README.md.

use oracle::compare::compare;
use oracle::draw::draw;
use oracle::exhaust::exhaust;
use oracle::player::{play, Ruling};
use oracle::sample::sample;
use std::fs::File;
use std::io::{self, stdin, stdout, BufReader, BufWriter, Write};
use std::process::ExitCode;

const USAGE: &str = "usage: oracle play < SCRIPT
       oracle expect < SCRIPT
       oracle draw --seed S --calls N
       oracle exhaust
       oracle sample --seed S
       oracle compare SCRIPT OURS THEIRS";

fn main() -> ExitCode {
    let arguments: Vec<String> = std::env::args().skip(1).collect();
    let arguments: Vec<&str> = arguments.iter().map(String::as_str).collect();
    match run(&arguments) {
        Ok(true) => ExitCode::SUCCESS,
        Ok(false) => ExitCode::from(1),
        Err(error) => {
            eprintln!("{error}");
            ExitCode::from(2)
        }
    }
}

/// True for success, false where outcomes differ.
fn run(arguments: &[&str]) -> io::Result<bool> {
    let mut out = BufWriter::new(stdout().lock());
    match arguments {
        ["play"] => play(Ruling::Rust, stdin().lock(), &mut out)?,
        ["expect"] => play(Ruling::Document, stdin().lock(), &mut out)?,
        ["draw", "--seed", seed, "--calls", calls] => {
            draw(number(seed)?, number(calls)?, &mut out)?
        }
        ["exhaust"] => exhaust(&mut out)?,
        ["sample", "--seed", seed] => sample(number(seed)?, &mut out)?,
        ["compare", script, ours, theirs] => {
            let same = compare(open(script)?, open(ours)?, open(theirs)?, &mut out)?;
            out.flush()?;
            return Ok(same);
        }
        _ => return Err(io::Error::other(USAGE)),
    }
    out.flush()?;
    Ok(true)
}

fn number(text: &str) -> io::Result<u64> {
    let wrong = |_| io::Error::other(format!("{text} is no number\n{USAGE}"));
    text.parse().map_err(wrong)
}

fn open(path: &str) -> io::Result<BufReader<File>> {
    let wrong = |error| io::Error::other(format!("{path}: {error}"));
    File::open(path).map(BufReader::new).map_err(wrong)
}
