//! Our side: the Rattle module's functions, linked from libffi.a.

use crate::called::{self, Which};
use crate::original::Numbers;
use crate::script::{Call, Fields, Wait, ADDRESS};

/// The link as C sees it.
#[repr(C)]
pub struct Link {
    pub address: u16,
    pub watchdog: u16,
    pub index: usize,
    pub length: usize,
    pub errors: u32,
    pub marks: u32,
    pub length_write_read: usize,
    pub data: [u8; 255],
}

/// A parked call as C keeps it, seven numbers for the module alone.
#[repr(C)]
pub struct Parked([u64; 7]);

/// An answer's number, the words taken, the places logged, and three values; all in one line of the cache.
#[repr(C, align(64))]
pub struct Out(pub [u64; 6]);

/// The answer of a call that is parked at a missing word.
pub const OUT_OF_WORDS: u64 = 9;

/// Links, a parked call, the buffers that the calls are lent, and how far the words and the log are used.
pub struct Ours {
    pub called: called::Ours,
    pub links: Vec<Link>,
    pub parked: Parked,
    pub bytes: [u8; 255],
    pub buffer: [u8; 255],
    pub out: Out,
    pub taken: usize,
    pub logged: usize,
}

impl Ours {
    pub fn new(bytes: [u8; 255], links: usize) -> Self {
        let link = || Link {
            address: 0,
            watchdog: 0,
            index: 0,
            length: 0,
            errors: 0,
            marks: 0,
            length_write_read: 0,
            data: [0; 255],
        };
        Ours {
            called: called::Ours::new(Which::Driver),
            links: (0..links).map(|_| link()).collect(),
            parked: Parked([0; 7]),
            bytes,
            buffer: [0; 255],
            out: Out([0; 6]),
            taken: 0,
            logged: 0,
        }
    }

    /// The next call starts at the first word and the first place of the log.
    #[inline]
    pub fn load(&mut self) {
        (self.taken, self.logged) = (0, 0);
    }

    /// Sets all fields of each link but the buffer.
    pub fn set(&mut self, fields: &Fields) {
        for link in &mut self.links {
            link.address = fields.address;
            link.watchdog = fields.watchdog;
            link.index = fields.index;
            link.length = fields.length;
            link.errors = fields.errors as u32;
            link.length_write_read = fields.length_write_read;
        }
    }

    /// A link's fields, as the original has them.
    pub fn fields(&self, link: usize) -> Fields {
        let link = &self.links[link];
        Fields {
            address: link.address,
            watchdog: link.watchdog,
            index: link.index,
            length: link.length,
            errors: link.errors as usize,
            length_write_read: link.length_write_read,
            data: link.data,
        }
    }

    /// The last answer, as the original's side gives it.
    pub fn numbers(&self) -> Numbers {
        [self.out.0[0], self.out.0[3], self.out.0[4], self.out.0[5]]
    }

    #[inline]
    pub fn call(&mut self, link: usize, call: Call, words: &[u32], log: &mut [u32]) {
        let (words, log) = (&words[self.taken..], &mut log[self.logged..]);
        let (w, wn, l, ln) = (words.as_ptr(), words.len(), log.as_mut_ptr(), log.len());
        let (link, out) = (&raw mut self.links[link], &raw mut self.out);
        let called = &self.called;
        let (address, bytes) = (ADDRESS.into(), self.bytes.as_ptr());
        unsafe {
            match call {
                Call::MasterWrite(n) => {
                    (called.master_write)(link, address, bytes, n, w, wn, l, ln, out)
                }
                Call::MasterWriteRead(n, m) => {
                    (called.master_write_read)(link, address, bytes, n, m, w, wn, l, ln, out)
                }
                Call::MasterRead(n) => (called.master_read)(link, address, n, w, wn, l, ln, out),
                Call::SlaveWrite(n) => (called.slave_write)(link, bytes, n, w, wn, l, ln, out),
                Call::Check => (called.check_isr_flags)(link, w, wn, l, ln, out),
                Call::Watchdog => (called.execute_watchdog)(link, w, wn, l, ln, out),
                Call::Errors => (called.get_errors_reset)(link, out),
            }
        }
        self.went(self.taken);
    }

    /// The waiting call: with `cut` it gets one word more a run, parks, and is resumed with the
    /// whole list and how many words were taken.
    #[inline]
    pub fn wait(&mut self, wait: Wait, cut: bool, words: &[u32], log: &mut [u32]) {
        let given = |taken| {
            if cut {
                words.len().min(taken + 1)
            } else {
                words.len()
            }
        };
        let (w, wn) = (words.as_ptr(), given(0));
        let (l, ln) = (log.as_mut_ptr(), log.len());
        let (parked, out) = (&raw mut self.parked, &raw mut self.out);
        let (bytes, buffer) = (self.bytes.as_ptr(), self.buffer.as_mut_ptr());
        let called = &self.called;
        let (send, receive) = match wait {
            Wait::Write(n) => (n, 0),
            Wait::Read(n) => (0, n),
            Wait::WriteRead(n, m) => (n, m),
        };
        unsafe {
            match wait {
                Wait::Write(n) => {
                    (called.blocking_write)(parked, ADDRESS, bytes, n, w, wn, l, ln, out)
                }
                Wait::Read(n) => {
                    (called.blocking_read)(parked, ADDRESS, buffer, n, w, wn, l, ln, out)
                }
                Wait::WriteRead(n, m) => (called.blocking_write_read)(
                    parked, ADDRESS, bytes, n, buffer, m, w, wn, l, ln, out,
                ),
            }
        }
        self.went(0);
        while self.out.0[0] == OUT_OF_WORDS && self.taken < words.len() {
            let (taken, wn) = (self.taken, given(self.taken));
            let room = &mut log[self.logged..];
            let (l, ln) = (room.as_mut_ptr(), room.len());
            let resume = self.called.blocking_resume;
            unsafe {
                resume(
                    parked, taken, bytes, send, buffer, receive, w, wn, l, ln, out,
                )
            }
            self.went(0);
        }
    }

    /// Goes on by the words taken, counted from this place on, and the places logged. They are read
    /// one by one, as they were written: a read of both at once would wait for the writes to leave
    /// the processor's buffer.
    #[inline]
    fn went(&mut self, from: usize) {
        let counts = (&raw const self.out.0[1], &raw const self.out.0[2]);
        let (taken, logged) = unsafe { (counts.0.read_volatile(), counts.1.read_volatile()) };
        self.taken = from + taken as usize;
        self.logged += logged as usize;
    }
}
