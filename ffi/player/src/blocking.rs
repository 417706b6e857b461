//! The calls of the blocking driver.

use crate::functions::*;
use crate::lent::{lend, Lent};
use oracle::call::{Begin, Event, Kind};

/// The call begun last, the slices that it has, and the words that it took.
pub struct Waiting {
    parked: Parked,
    send: Vec<u8>,
    pub recv: Vec<u8>,
    words: Vec<u32>,
    taken: u64,
}

/// No call begun.
const NONE: Parked = [0; 7];

/// The answers that leave the numbers of a parked call.
const BAD_LENGTH: u64 = 6;
const OUT_OF_WORDS: u64 = 9;
const WRONG_CALL: u64 = 11;

impl Waiting {
    pub fn new() -> Self {
        Waiting {
            parked: NONE,
            send: Vec::new(),
            recv: Vec::new(),
            words: Vec::new(),
            taken: 0,
        }
    }

    /// A begin that is refused leaves the numbers, but a script has no call then
    /// (`oracle/GRAMMAR.md`).
    pub fn begin(&mut self, begin: Begin, lent: &mut Lent) {
        self.send = begin.send;
        self.recv = begin.recv;
        let before = self.parked;
        let parked = self.parked.as_mut_ptr();
        let address = begin.address;
        let (send, sends) = (self.send.as_ptr(), self.send.len());
        let (recv, receives) = (self.recv.as_mut_ptr(), self.recv.len());
        // SAFETY: the parked call, both slices and everything lent live until the function returns.
        unsafe {
            match begin.kind {
                Kind::Write => lend!(lent, i2c_blocking_write(parked, address, send, sends)),
                Kind::Read => lend!(lent, i2c_blocking_read(parked, address, recv, receives)),
                Kind::WriteRead => lend!(
                    lent,
                    i2c_blocking_write_read(parked, address, send, sends, recv, receives)
                ),
                Kind::SlaveWrite => lend!(lent, i2c_blocking_slave_write(parked, send, sends)),
                Kind::SlaveRead => lend!(lent, i2c_blocking_slave_read(parked, recv, receives)),
                Kind::SlaveWaitAddressed => {
                    lend!(lent, i2c_blocking_slave_wait_addressed(parked))
                }
            }
        }
        self.went(before, lent);
        if lent.out[0] == BAD_LENGTH {
            self.parked = NONE;
        }
    }

    /// The line's words come after those that were taken; the whole list is lent.
    pub fn resume(&mut self, send: Option<Vec<u8>>, recv: Option<Vec<u8>>, lent: &mut Lent) {
        // Lent from now on, whatever the answer.
        if let Some(send) = send {
            self.send = send;
        }
        if let Some(recv) = recv {
            self.recv = recv;
        }
        lent.follow(&self.words, self.taken);
        let before = self.parked;
        let parked = self.parked.as_mut_ptr();
        let (send, sends) = (self.send.as_ptr(), self.send.len());
        let (recv, receives) = (self.recv.as_mut_ptr(), self.recv.len());
        let mut next = [u64::MAX; 3];
        // SAFETY: as at the begin.
        unsafe {
            i2c_blocking_next(parked, send, sends, next.as_mut_ptr());
            lend!(
                lent,
                i2c_blocking_resume(parked, self.taken, send, sends, recv, receives)
            )
        }
        self.went(before, lent);
        if !begins_with(next, lent) {
            let (answer, first) = (lent.out[0], lent.accesses().first().copied());
            lent.find(format!(
                "next is {next:?}; the answer {answer}, first {first:?}"
            ));
        }
    }

    /// Keeps the words that the call took, and their count as it was handed out.
    fn went(&mut self, before: Parked, lent: &mut Lent) {
        if matches!(lent.out[0], BAD_LENGTH | WRONG_CALL) && self.parked != before {
            lent.find("a refused call wrote the seven numbers".to_string());
        }
        self.taken = lent.out[1];
        self.words = lent.words.clone();
        self.words
            .truncate(self.taken.try_into().unwrap_or(usize::MAX));
    }
}

/// The first access is the one that was named: 0 none, 1 a read, 2 a write; the
/// offset; the word of a write. A run that makes none has no word for the read, no
/// room, or is refused.
fn begins_with(next: [u64; 3], lent: &Lent) -> bool {
    match lent.accesses().first() {
        Some(access) if access.write => next == [2, access.offset.into(), access.word.into()],
        Some(access) => next == [1, access.offset.into(), 0],
        None if lent.out[0] == OUT_OF_WORDS => next[0] == 1,
        None => next != [0; 3] || lent.out[0] == WRONG_CALL,
    }
}

/// `bl new`
pub fn construct(config: &Numbers, clock: u32, lent: &mut Lent) {
    // SAFETY: the configuration and everything lent live until the function returns.
    unsafe { lend!(lent, i2c_blocking_construct(config.as_ptr(), clock)) }
}

/// The other calls that never wait.
pub enum Unwaited {
    SlaveAddressed,
    Sbc(bool),
    Listen(Event),
    Unlisten(Event),
    ClearIrq(Event),
}

pub fn unwaited(call: Unwaited, lent: &mut Lent) {
    // SAFETY: everything lent lives until the function returns.
    unsafe {
        match call {
            Unwaited::SlaveAddressed => lend!(lent, i2c_blocking_slave_addressed()),
            Unwaited::Sbc(on) => lend!(lent, i2c_blocking_slave_sbc(on)),
            Unwaited::Listen(event) => lend!(lent, i2c_blocking_listen(number(event))),
            Unwaited::Unlisten(event) => lend!(lent, i2c_blocking_unlisten(number(event))),
            Unwaited::ClearIrq(event) => i2c_blocking_clear_irq(
                number(event),
                lent.log.as_mut_ptr(),
                lent.places,
                lent.out.as_mut_ptr(),
            ),
        }
    }
}

fn number(event: Event) -> u8 {
    match event {
        Event::AddressMatch => 0,
        Event::Rxne => 1,
    }
}
