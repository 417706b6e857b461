//! The scripted register block: each read takes the next word, each access is
//! logged, and a call that meets the end of the words or of the log is
//! stopped by unwinding with a payload of its own.

use std::cell::RefCell;
use std::panic::resume_unwind;

/// One access as it is logged.
#[derive(Clone, Copy, PartialEq, Eq, Debug)]
pub struct Access {
    pub write: bool,
    pub offset: u8,
    pub word: u32,
}

/// Why the block stopped a call; the payload of the unwinding.
#[derive(Clone, Copy, PartialEq, Eq, Debug)]
pub enum Stop {
    /// The next read has no word.
    OutOfWords,
    /// The log has under two places for the next access.
    LogFull,
}

/// A log that never fills.
pub const ENDLESS: usize = usize::MAX;

struct Tape {
    words: Vec<u32>,
    taken: usize,
    log: Vec<Access>,
    /// Accesses that an earlier run of the same call has logged: they need no place.
    earlier: usize,
    places: usize,
}

thread_local! {
    static TAPE: RefCell<Tape> = const {
        RefCell::new(Tape { words: Vec::new(), taken: 0, log: Vec::new(), earlier: 0, places: 0 })
    };
}

/// Lays in the words and the log of the next call.
pub fn load(words: &[u32], earlier: usize, places: usize) {
    TAPE.with_borrow_mut(|tape| {
        tape.words.clear();
        tape.words.extend_from_slice(words);
        tape.taken = 0;
        tape.log.clear();
        tape.earlier = earlier;
        tape.places = places;
    });
}

/// The words taken since `load`.
pub fn taken() -> usize {
    TAPE.with_borrow(|tape| tape.taken)
}

/// Lends the accesses made since `load`.
pub fn with_log<T>(look: impl FnOnce(&[Access]) -> T) -> T {
    TAPE.with_borrow(|tape| look(&tape.log))
}

pub(crate) fn read(offset: u8) -> u32 {
    let outcome = TAPE.with_borrow_mut(|tape| {
        let word = *tape.words.get(tape.taken).ok_or(Stop::OutOfWords)?;
        tape.note(false, offset, word)?;
        tape.taken += 1;
        Ok(word)
    });
    outcome.unwrap_or_else(|stop| stopped(stop))
}

pub(crate) fn write(offset: u8, word: u32) {
    let outcome = TAPE.with_borrow_mut(|tape| tape.note(true, offset, word));
    outcome.unwrap_or_else(|stop| stopped(stop))
}

impl Tape {
    fn note(&mut self, write: bool, offset: u8, word: u32) -> Result<(), Stop> {
        let logged = self.log.len();
        if logged >= self.earlier && self.places - 2 * (logged - self.earlier) < 2 {
            return Err(Stop::LogFull);
        }
        self.log.push(Access {
            write,
            offset,
            word,
        });
        Ok(())
    }
}

/// `resume_unwind` and not `panic!`: no message, no hook.
#[cold]
fn stopped(stop: Stop) -> ! {
    resume_unwind(Box::new(stop))
}
