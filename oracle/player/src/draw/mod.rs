//! Draws scripts: seeded, the same everywhere.

mod bad;
mod configs;
mod links;
mod material;
mod waits;

use crate::parse::{sort, Sort};
use crate::player::{Player, Ruling};
use crate::random::Random;
use std::io::{self, Write};

/// What the drawing keeps: the script so far, and a player that tells how many
/// words of a parked call were taken, so that the rest can be given again.
struct Drawer {
    random: Random,
    player: Player,
    script: Vec<u8>,
    outcome: Vec<u8>,
    /// How many calls are still to be drawn.
    left: u64,
    /// No disturbance in this scene, so that long transfers come to their end.
    calm: bool,
}

/// Writes a script of `calls` calls; `nb set`, `nb reset` and bad lines stand
/// beside them and are not counted.
pub fn draw(seed: u64, calls: u64, output: &mut impl Write) -> io::Result<()> {
    let mut drawer = Drawer::new(seed, calls);
    writeln!(output, "# drawn with seed {seed}, {calls} calls")?;
    while drawer.left > 0 {
        drawer.scene();
        output.write_all(&drawer.script)?;
        drawer.script.clear();
    }
    Ok(())
}

/// Drawn scenes without end.
pub fn scenes(seed: u64) -> impl Iterator<Item = Vec<u8>> {
    let mut drawer = Drawer::new(seed, u64::MAX);
    std::iter::from_fn(move || {
        drawer.scene();
        Some(std::mem::take(&mut drawer.script))
    })
}

impl Drawer {
    fn new(seed: u64, calls: u64) -> Self {
        Drawer {
            random: Random::new(seed),
            player: Player::new(Ruling::Document),
            script: Vec::new(),
            outcome: Vec::new(),
            left: calls,
            calm: false,
        }
    }

    /// A few calls that belong together.
    fn scene(&mut self) {
        self.calm = self.random.one_in(3);
        match self.random.below(80) {
            0..=22 => self.link_scene(),
            23..=70 => self.waiting_scene(),
            71..=76 => self.config_scene(),
            77 | 78 => self.bad_line(),
            _ => self
                .script
                .extend_from_slice(b"# a comment, then an empty line\n\n"),
        }
    }

    /// Adds a line, unless all calls are drawn.
    fn line(&mut self, text: &str) {
        if self.left == 0 {
            return;
        }
        if sort(text.as_bytes()) == Sort::Call {
            self.left -= 1;
        }
        self.script.extend_from_slice(text.as_bytes());
        self.script.push(b'\n');
        self.outcome.clear();
        self.player.line(0, text.as_bytes(), &mut self.outcome);
    }

    /// Adds a call with its words, now and then with too few or too many, and
    /// now and then with a small log.
    fn call(&mut self, call: &str, words: &[u32]) {
        let mut words = words.to_vec();
        if self.disturbed(24) {
            words.truncate(self.random.below(words.len() + 1));
        } else if self.random.one_in(8) {
            words.push(self.random.word32());
        }
        let log = self.disturbed(12).then(|| self.random.below(13));
        self.line_with(call, log, &words);
    }

    /// True once in `n` times, never in a calm scene.
    fn disturbed(&mut self, n: usize) -> bool {
        !self.calm && self.random.one_in(n)
    }

    /// Whether the last line was answered with this number.
    fn answered(&self, number: u8) -> bool {
        let answer = format!("\n= {number}\n");
        self.outcome
            .windows(answer.len())
            .any(|text| text == answer.as_bytes())
    }

    /// Adds a call with these words and this log.
    fn line_with(&mut self, call: &str, log: Option<usize>, words: &[u32]) {
        let mut text = call.to_string();
        if let Some(places) = log {
            text += &format!(" log={places}");
        }
        if !words.is_empty() || self.random.one_in(4) {
            text += " |";
        }
        let style = self.random.below(16);
        for word in words {
            text += &match style {
                0 => format!(" {word:x}"),
                1 => format!(" {word:08X}"),
                _ => format!(" {word:X}"),
            };
        }
        self.line(&text);
    }
}
