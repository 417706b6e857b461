//! Both sides of a row: laid out, run and compared.

use crate::called::{self, Which};
use crate::original::{Numbers, Original};
use crate::ours::Ours;
use crate::script::{Row, What};
use chip::tape;

/// How often a row is run at once, with a link for each time.
pub const TIMES: usize = 32;
/// More places than any row fills.
const PLACES: usize = 4096;

pub struct Both {
    original: Original,
    ours: Ours,
    original_log: Vec<u32>,
    our_log: Vec<u32>,
}

/// Where callgrind writes out the counts since the last mark.
#[no_mangle]
#[inline(never)]
pub fn bench_mark() {
    std::hint::black_box(());
}

impl Both {
    pub fn new() -> Self {
        let bytes = std::array::from_fn(|i| i as u8 ^ 0x5A);
        Both {
            original: Original::new(bytes, TIMES),
            ours: Ours::new(bytes, TIMES),
            original_log: vec![0; PLACES],
            our_log: vec![0; PLACES],
        }
    }

    /// What is called from here on.
    pub fn call(&mut self, which: Which) {
        self.original.called = called::Original::new(which);
        self.ours.called = called::Ours::new(which);
    }

    /// Sets the numbers of all links. No buffer is cleared.
    pub fn set(&mut self, row: &Row) {
        if let What::Calls(link, _) = &row.what {
            self.original.set(link);
            self.ours.set(link);
        }
    }

    /// The row on the first links, each time from the first word and to the log's first place.
    #[inline(never)]
    pub fn run_original(&mut self, row: &Row, times: usize) {
        let (side, log) = (&mut self.original, &mut self.original_log);
        for link in 0..times {
            side.load(&row.words, log);
            match &row.what {
                What::Calls(_, calls) => {
                    for call in calls {
                        side.call(link, *call, &mut ());
                    }
                }
                What::Waiting { call, .. } => side.wait(*call, &mut ()),
            }
        }
    }

    #[inline(never)]
    pub fn run_ours(&mut self, row: &Row, times: usize) {
        let (side, log) = (&mut self.ours, &mut self.our_log);
        for link in 0..times {
            side.load();
            match &row.what {
                What::Calls(_, calls) => {
                    for call in calls {
                        side.call(link, *call, &row.words, log);
                    }
                }
                What::Waiting { call, cut } => side.wait(*call, *cut, &row.words, log),
            }
        }
    }

    /// Runs both sides call by call. Stops where an answer, a log, a link, a
    /// buffer or the number of words taken differs.
    pub fn compare(&mut self, row: &Row) {
        self.set(row);
        self.original.load(&row.words, &mut self.original_log);
        self.ours.load();
        let mut theirs: Numbers = [0; 4];
        match &row.what {
            What::Calls(_, calls) => {
                for call in calls {
                    theirs = [0; 4];
                    self.original.call(0, *call, &mut theirs);
                    self.ours.call(0, *call, &row.words, &mut self.our_log);
                    self.same(row, theirs);
                }
                let (link, our_link) = (self.original.links[0].fields(), self.ours.fields(0));
                assert_eq!(link, our_link, "{}", row.name);
            }
            What::Waiting { call, cut } => {
                self.original.wait(*call, &mut theirs);
                self.ours.wait(*call, *cut, &row.words, &mut self.our_log);
                self.same(row, theirs);
                assert_eq!(self.original.buffer, self.ours.buffer, "{}", row.name);
            }
        }
    }

    fn same(&self, row: &Row, theirs: Numbers) {
        let (word, place) = tape::reached();
        let taken = (word as usize - row.words.as_ptr() as usize) / 4;
        let logged = (place as usize - self.original_log.as_ptr() as usize) / 4;
        let ours = (self.ours.taken, self.ours.logged);
        assert_eq!((taken, logged), ours, "{}", row.name);
        assert_eq!(theirs, self.ours.numbers(), "{}", row.name);
        let (log, our_log) = (&self.original_log[..logged], &self.our_log[..logged]);
        assert_eq!(log, our_log, "{}", row.name);
    }
}
