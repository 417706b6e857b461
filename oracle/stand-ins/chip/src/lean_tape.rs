//! The scripted register block for measuring: each read takes the next word,
//! each access is logged as two words, and nothing is checked.

use core::ptr::{null, null_mut};

/// What is added to a register's offset where it is written.
const WRITE: u32 = 0x100;

/// The next word, and the next two places of the log.
static mut WORDS: *const u32 = null();
static mut LOG: *mut u32 = null_mut();

/// Lays in the words and the log of the next calls.
///
/// # Safety
///
/// Until the next `load`, on one thread, there is a word for each read and
/// two places of the log for each access.
#[inline]
pub unsafe fn load(words: *const u32, log: *mut u32) {
    unsafe {
        WORDS = words;
        LOG = log;
    }
}

/// The next word and the next place of the log.
#[inline]
pub fn reached() -> (*const u32, *mut u32) {
    unsafe { (WORDS, LOG) }
}

#[inline]
pub(crate) fn read(offset: u8) -> u32 {
    let word = unsafe {
        let word = WORDS.read();
        WORDS = WORDS.add(1);
        word
    };
    note(offset as u32, word);
    word
}

#[inline]
pub(crate) fn write(offset: u8, word: u32) {
    note(offset as u32 + WRITE, word);
}

#[inline]
fn note(access: u32, word: u32) {
    unsafe {
        LOG.write(access);
        LOG.add(1).write(word);
        LOG = LOG.add(2);
    }
}
