//! One run of an original call over the scripted block, and what it comes to
//! for a call that never waits.

use crate::answer::Answer;
use chip::tape::{self, Stop};
use std::cell::Cell;
use std::panic::{catch_unwind, set_hook, take_hook, AssertUnwindSafe};
use std::sync::Once;

thread_local! {
    static RUNNING: Cell<bool> = const { Cell::new(false) };
}

/// Keeps the panics of original calls, and only those, from being printed.
pub fn quiet_originals() {
    static ONCE: Once = Once::new();
    ONCE.call_once(|| {
        let usual = take_hook();
        set_hook(Box::new(move |info| {
            if !RUNNING.get() {
                usual(info);
            }
        }));
    });
}

/// How a run ended.
pub enum End {
    Answered(Answer),
    /// The block stopped it.
    Stopped(Stop),
    /// The Rust stopped it: an assertion, an `unwrap`, an overflow.
    Panicked(String),
}

/// Runs a call; its log and the words taken stay on the tape.
pub fn run(words: &[u32], earlier: usize, places: usize, call: impl FnOnce() -> Answer) -> End {
    tape::load(words, earlier, places);
    RUNNING.set(true);
    let caught = catch_unwind(AssertUnwindSafe(call));
    RUNNING.set(false);
    let payload = match caught {
        Ok(answer) => return End::Answered(answer),
        Err(payload) => payload,
    };
    if let Some(stop) = payload.downcast_ref::<Stop>() {
        End::Stopped(*stop)
    } else if let Some(message) = payload.downcast_ref::<String>() {
        End::Panicked(message.clone())
    } else if let Some(message) = payload.downcast_ref::<&str>() {
        End::Panicked(message.to_string())
    } else {
        End::Panicked("no message".to_string())
    }
}

/// What a call comes to: its answer, and whether its accesses are shown and
/// its changes kept.
pub struct Outcome {
    pub answer: Answer,
    pub logged: bool,
    pub kept: bool,
}

impl Outcome {
    /// A refusal that leaves everything.
    pub fn refused(number: u8) -> Self {
        Outcome {
            answer: Answer::Number(number),
            logged: false,
            kept: false,
        }
    }
}

/// Runs a call that never waits: it is tried for 9 over all its reads, then for
/// 10 over all its accesses. A panic is shown as the number `for_panic`, if
/// there is one, else as its message.
pub fn run_unwaited(
    words: &[u32],
    places: usize,
    for_panic: Option<u8>,
    call: impl FnOnce() -> Answer,
) -> Outcome {
    let end = run(words, 0, tape::ENDLESS, call);
    let needed = 2 * tape::with_log(|log| log.len());
    match end {
        End::Stopped(_) => Outcome::refused(9),
        _ if needed > places => Outcome::refused(10),
        End::Answered(answer) => Outcome {
            answer,
            logged: true,
            kept: true,
        },
        End::Panicked(message) => Outcome {
            answer: for_panic.map_or(Answer::Panic(message), Answer::Number),
            logged: true,
            kept: false,
        },
    }
}
