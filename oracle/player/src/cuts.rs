//! Waiting calls cut at every pair of places, by their words and by their logs, and resumed many times: each beside the
//! same call uncut.

use crate::player::{Player, Ruling};

/// Calls with all the words up to their end.
const CALLS: [(&str, &str); 9] = [
    ("bl write 50 0102", "2000 0 0 10 2 80 0 2 20 3 1"),
    ("bl read 50 AABB", "0 99 0 0 4 11 4 22 20 0 1"),
    ("bl read 50 AABB", "2000 0 99 0 4 11 100"),
    ("bl write_read 50 01 AABB", "0 2 10 40 4 11 4 22 4 8"),
    ("bl write_read 50 01 AABB", "0 2 20 2 1"),
    ("bl slave_write 0102", "0 2 2 2 20 2 0"),
    ("bl slave_write 0102", "0 0 2 200"),
    ("bl slave_read AABB", "0 4 33 4 11 80 FFFFFFFF 20 0 0"),
    ("bl slave_wait_addressed", "0 10 8 A50008"),
];

/// The most words that a line may have.
const MOST: usize = 4_096;

/// A call uncut, and scripts that cut it.
pub struct Scene {
    pub whole: String,
    pub cut: Vec<String>,
}

/// A line's end: before which access of the call, for want of room or of a word.
#[derive(Clone, Copy)]
struct Cut {
    place: usize,
    by_log: bool,
}

/// A call with its words, and of each of its accesses whether it is a read.
struct Waiting {
    call: String,
    words: Vec<String>,
    reads: Vec<bool>,
}

pub fn scenes() -> Vec<Scene> {
    let mut scenes: Vec<Scene> = CALLS.map(every_pair).into();
    scenes.push(long());
    scenes
}

/// Each pair of places, then a line for each word and for each access. At the end each line gives more words than are
/// taken: with those taken before it just the most that a line has, one more, and as many as a line may.
fn every_pair((call, words): (&str, &str)) -> Scene {
    let waiting = Waiting::new(call, words.split(' ').map(str::to_string).collect());
    let cuts = [waiting.cuts(false), waiting.cuts(true)].concat();
    let mut cut = Vec::new();
    for first in &cuts {
        for second in cuts.iter().filter(|second| first.place <= second.place) {
            cut.push(waiting.script(&[*first, *second], 0));
        }
    }
    cut.extend(waiting.finely());
    cut.extend([MOST, MOST + 1, 2 * MOST].map(|words| waiting.script(&waiting.cuts(true), words)));
    Scene {
        whole: waiting.whole(),
        cut,
    }
}

/// 255 bytes each way, a line for each word and for each access.
fn long() -> Scene {
    let received = (0..255).map(|byte| format!("4 {byte:X}"));
    let words = ["0", &["2"; 255].join(" "), "40"].map(str::to_string);
    let words: Vec<_> = words.into_iter().chain(received).collect();
    let words = format!("{} 20 0 0", words.join(" "));
    let waiting = Waiting::new(
        "bl write_read 50 5Ax255 A5x255",
        words.split(' ').map(str::to_string).collect(),
    );
    Scene {
        whole: waiting.whole(),
        cut: waiting.finely().into(),
    }
}

impl Waiting {
    fn new(call: &str, words: Vec<String>) -> Self {
        let mut waiting = Waiting {
            call: call.to_string(),
            words,
            reads: Vec::new(),
        };
        let mut outcome = Vec::new();
        Player::new(Ruling::Document).line(1, waiting.whole().trim_end().as_bytes(), &mut outcome);
        let accesses = outcome
            .split(|&byte| byte == b'\n')
            .filter(|line| line.starts_with(b"R ") || line.starts_with(b"W "));
        waiting.reads = accesses.map(|line| line[0] == b'R').collect();
        waiting
    }

    fn whole(&self) -> String {
        format!("{} | {}\n", self.call, self.words.join(" "))
    }

    /// Every place where a log can fill, or where the words can end: before a read.
    fn cuts(&self, by_log: bool) -> Vec<Cut> {
        (0..self.reads.len())
            .filter(|&place| by_log || self.reads[place])
            .map(|place| Cut { place, by_log })
            .collect()
    }

    /// A line for each word, and one for each access.
    fn finely(&self) -> [String; 2] {
        [false, true].map(|by_log| self.script(&self.cuts(by_log), 0))
    }

    /// The call cut so, and resumed until it ends. A line's words are filled up until with those taken before it they are
    /// so many, or as many as a line may have.
    fn script(&self, cuts: &[Cut], words: usize) -> String {
        let end = Cut {
            place: self.reads.len(),
            by_log: false,
        };
        let (mut script, mut from) = (String::new(), 0);
        for (line, cut) in cuts.iter().chain([&end]).enumerate() {
            let call = if line == 0 { &self.call } else { "bl resume" };
            // An odd place of a log has no room for an access.
            let places = 2 * (cut.place - from) + line % 2;
            let log = match cut.by_log {
                true => format!(" log={places}"),
                false => String::new(),
            };
            let taken = self.taken(from);
            let given = match cut.by_log {
                true => &self.words[taken..],
                false => &self.words[taken..self.taken(cut.place)],
            };
            let more = words.min(taken + MOST).saturating_sub(taken + given.len());
            script += &format!("{call}{log} |");
            for word in given {
                script += &format!(" {word}");
            }
            script += &" 0".repeat(more);
            script.push('\n');
            from = cut.place;
        }
        script
    }

    /// How many words the accesses before this place take.
    fn taken(&self, place: usize) -> usize {
        self.reads[..place].iter().filter(|&&read| read).count()
    }
}
