//! Plays a script, line by line, and writes the outcomes.

use crate::answer::*;
use crate::call::Call;
use crate::link::Link;
use crate::parse::parse;
use crate::reader::{is_skipped, next_line};
use crate::run::{quiet_originals, Outcome};
use crate::unwaited;
use crate::waiting::{Ran, Waiting};
use chip::tape;
use original_nonblocking::i2c::peek::Fields;
use std::io::{self, BufRead, Write};

/// Who has the last word on a call.
#[derive(Clone, Copy, PartialEq, Eq, Debug)]
pub enum Ruling {
    /// `play`: the Rust, also where it stops.
    Rust,
    /// `expect`: document 01, also where the Rust does something else.
    Document,
}

pub struct Player {
    ruling: Ruling,
    link: Link,
    waiting: Waiting,
    words: Vec<u32>,
}

impl Player {
    pub fn new(ruling: Ruling) -> Self {
        quiet_originals();
        Player {
            ruling,
            link: Link::new(ruling),
            waiting: Waiting::new(),
            words: Vec::new(),
        }
    }

    pub fn link(&self) -> Fields {
        self.link.fields()
    }

    pub fn set_link(&mut self, fields: &Fields) {
        self.link.set_fields(fields);
    }

    /// Whether a blocking call is parked and not over.
    pub fn is_parked(&self) -> bool {
        self.waiting.is_parked()
    }

    /// The words that the last run of a waiting call took.
    pub fn words_taken(&self) -> usize {
        self.waiting.taken
    }

    /// Plays one line; an empty line or a comment has no outcome.
    pub fn line(&mut self, number: u64, line: &[u8], out: &mut Vec<u8>) {
        if is_skipped(line) {
            return;
        }
        number_line(out, number);
        let mut words = std::mem::take(&mut self.words);
        match parse(line, &mut words) {
            Some((call, places)) => self.call(call, &words, places, out),
            None => bad_line(out),
        }
        self.words = words;
    }

    fn call(&mut self, call: Call, words: &[u32], places: usize, out: &mut Vec<u8>) {
        match call {
            Call::LinkReset => {
                let outcome = self.link.reset();
                self.show_link(outcome, out);
            }
            Call::LinkSet(values) => {
                let outcome = self.link.set(&values);
                self.show_link(outcome, out);
            }
            Call::LinkNew(with) => {
                let outcome = self.link.construct(&with, words, places);
                self.show_link(outcome, out);
            }
            Call::Link(call) => {
                let outcome = self.link.call(&call, words, places);
                self.show_link(outcome, out);
            }
            Call::Begin(begin) => {
                let receives = begin.kind.receives();
                let ran = self.waiting.begin(begin, self.ruling, words, places);
                self.show_waiting(ran, receives, out);
            }
            Call::Resume { send, recv } => {
                let ran = self.waiting.resume(send, recv, words, places);
                self.show_waiting(ran, true, out);
            }
            Call::Unwaited(call) => {
                let driver = &mut self.waiting.driver;
                let outcome = unwaited::call(driver, self.ruling, &call, words, places);
                show(outcome, out);
            }
        }
    }

    fn show_link(&self, outcome: Outcome, out: &mut Vec<u8>) {
        show(outcome, out);
        link_line(out, &self.link.fields());
    }

    fn show_waiting(&self, ran: Ran, buffer: bool, out: &mut Vec<u8>) {
        if ran.logged {
            show_log(ran.shown_before, out);
        }
        answer_line(out, &ran.answer);
        if buffer {
            buffer_line(out, &self.waiting.recv);
        }
    }
}

fn show(outcome: Outcome, out: &mut Vec<u8>) {
    if outcome.logged {
        show_log(0, out);
    }
    answer_line(out, &outcome.answer);
}

fn show_log(from: usize, out: &mut Vec<u8>) {
    tape::with_log(|log| {
        log[from..]
            .iter()
            .for_each(|access| access_line(out, access))
    });
}

/// Plays a whole script.
pub fn play(ruling: Ruling, mut input: impl BufRead, mut output: impl Write) -> io::Result<()> {
    let mut player = Player::new(ruling);
    let (mut line, mut out) = (Vec::new(), Vec::new());
    let mut number = 0;
    while next_line(&mut input, &mut line)? {
        number += 1;
        player.line(number, &line, &mut out);
        if out.len() > 1 << 16 {
            output.write_all(&out)?;
            out.clear();
        }
    }
    output.write_all(&out)?;
    output.flush()
}
