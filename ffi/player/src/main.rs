//! Plays a script through the C functions of the library and compares every
//! outcome to the byte: with given outcomes, or, for drawn calls, with what the
//! original Rust gives.

mod blocking;
mod functions;
mod lent;
mod link;
mod player;
mod settings;

use oracle::compare::differences;
use oracle::draw::draw;
use oracle::player::{play, Ruling};
use oracle::reader::{is_skipped, next_line};
use player::Player;
use std::collections::HashSet;
use std::fs::read;
use std::io::{self, stdout};
use std::process::ExitCode;

const USAGE: &str = "usage: boundary list SCRIPT OUTCOMES
       boundary draw SEED CALLS";

fn main() -> ExitCode {
    let arguments: Vec<String> = std::env::args().skip(1).collect();
    let arguments: Vec<&str> = arguments.iter().map(String::as_str).collect();
    match run(&arguments) {
        Ok(true) => ExitCode::SUCCESS,
        Ok(false) => ExitCode::from(1),
        Err(error) => {
            eprintln!("{error}");
            ExitCode::from(2)
        }
    }
}

/// True where the outcomes are the same.
fn run(arguments: &[&str]) -> io::Result<bool> {
    match arguments {
        ["list", script, outcomes] => compare(&read(script)?, &read(outcomes)?),
        ["draw", seed, calls] => {
            let number = |text: &str| text.parse().map_err(|_| io::Error::other(USAGE));
            let (mut script, mut outcomes) = (Vec::new(), Vec::new());
            draw(number(seed)?, number(calls)?, &mut script)?;
            play(Ruling::Document, &script[..], &mut outcomes)?;
            compare(&script, &outcomes)
        }
        _ => Err(io::Error::other(USAGE)),
    }
}

fn compare(mut script: &[u8], outcomes: &[u8]) -> io::Result<bool> {
    let (mut player, mut ours) = (Player::new(), Vec::new());
    // The script with empty lines for those without a function: an empty line has no outcome.
    let (mut played, mut left_out) = (Vec::new(), HashSet::new());
    let (mut line, mut number) = (Vec::new(), 0);
    while next_line(&mut script, &mut line)? {
        number += 1;
        if is_skipped(&line) || player.line(number, &line, &mut ours) {
            played.extend_from_slice(&line);
        } else {
            left_out.insert(number);
        }
        played.push(b'\n');
    }
    let theirs = without(outcomes, &left_out);
    let compared = differences(&played[..], &ours[..], &theirs[..], &mut stdout())?;
    println!("{compared}");
    println!(
        "{} calls through the C boundary, {} left out: the library has no function for them",
        player.calls,
        left_out.len()
    );
    Ok(compared.differences == 0)
}

/// Outcomes but for those of some lines.
fn without(outcomes: &[u8], left_out: &HashSet<u64>) -> Vec<u8> {
    let (mut kept, mut keeps) = (Vec::new(), true);
    for line in outcomes.split_inclusive(|&byte| byte == b'\n') {
        if let Some(number) = line.strip_prefix(b"> ") {
            let number = std::str::from_utf8(number).ok();
            let number = number.and_then(|text| text.trim_end().parse().ok());
            keeps = number.is_none_or(|number| !left_out.contains(&number));
        }
        if keeps {
            kept.extend_from_slice(line);
        }
    }
    kept
}
