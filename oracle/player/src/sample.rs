//! Chooses the fixed list: the rows that are written down, and then short
//! scenes of drawn calls, each of which shows something that none before showed.

use crate::draw::scenes;
use crate::player::{Player, Ruling};
use std::collections::HashSet;
use std::io::{self, Write};

const ROWS: &str = include_str!("rows.script");

/// How many drawn scenes are looked at.
const SCENES: usize = 60_000;

/// The most bytes of script and outcomes together.
const MOST: usize = 900_000;

/// The most bytes of one scene with its outcomes.
const MOST_OF_SCENE: usize = 12_000;

/// The lines whose accesses have no bound.
const WAITING: [&str; 7] = [
    "bl write",
    "bl read",
    "bl write_read",
    "bl slave_write",
    "bl slave_read",
    "bl slave_wait_addressed",
    "bl resume",
];

/// Writes the script of the fixed list.
pub fn sample(seed: u64, out: &mut impl Write) -> io::Result<()> {
    let mut seen = HashSet::new();
    let mut size = ROWS.len();
    for (_, outcome) in played(ROWS) {
        size += outcome.len();
    }
    write!(
        out,
        "# The fixed list: rows, and drawn scenes of seed {seed}.\n{ROWS}"
    )?;
    for scene in scenes(seed).take(SCENES) {
        let scene = format!("nb reset\n{}", String::from_utf8_lossy(&scene));
        let lines = played(&scene);
        let bytes = scene.len()
            + lines
                .iter()
                .map(|(_, outcome)| outcome.len())
                .sum::<usize>();
        if bytes > MOST_OF_SCENE || size + bytes > MOST {
            continue;
        }
        let marks = lines
            .iter()
            .flat_map(|(line, outcome)| marks(line, outcome));
        let before = seen.len();
        seen.extend(marks);
        if seen.len() > before {
            size += bytes;
            out.write_all(scene.as_bytes())?;
        }
    }
    Ok(())
}

/// Each line of a script with its outcome, from the first state on.
fn played(script: &str) -> Vec<(String, String)> {
    let mut player = Player::new(Ruling::Document);
    let play = |(line, number): (&str, u64)| {
        let mut out = Vec::new();
        player.line(number, line.as_bytes(), &mut out);
        (line.to_string(), String::from_utf8_lossy(&out).into_owned())
    };
    script.lines().zip(1..).map(play).collect()
}

/// What an outcome shows: the call with its answer and with each two and three accesses in a row; of a call that never
/// waits also all its accesses together with the answer.
fn marks(line: &str, outcome: &str) -> Vec<String> {
    let call = line
        .split(' ')
        .filter(|token| !token.is_empty())
        .take(2)
        .collect::<Vec<_>>()
        .join(" ");
    let accesses: Vec<&str> = outcome
        .lines()
        .filter(|line| line.starts_with("R ") || line.starts_with("W "))
        .map(|line| &line[..4])
        .collect();
    let answer = outcome
        .lines()
        .find(|line| line.starts_with(['=', '?']))
        .unwrap_or("");
    let answer = answer.split(' ').take(2).collect::<Vec<_>>().join(" ");
    let mut marks = vec![format!("{call} {answer}")];
    for some in [2, 3] {
        marks.extend(accesses.windows(some).map(|run| format!("{call} {run:?}")));
    }
    if !WAITING.contains(&call.as_str()) {
        marks.push(format!("{call} {answer} {accesses:?}"));
    }
    marks
}
