//! What every call is lent, the words, a log and the six numbers of its
//! answer, and what the call made of it.

use oracle::answer::{Access, Answer};
use oracle::parse::ENDLESS;

/// Stands in every place before a call, and still in those that no call may touch.
const UNTOUCHED: u32 = 0xA5A5_A5A5;
/// Places after the end of what is lent.
const FENCE: usize = 2;
/// From here on the first number of an access means a write.
const WRITE: u32 = 0x100;

pub struct Lent {
    /// The whole list, and how many of it were taken before this call.
    pub words: Vec<u32>,
    taken: u64,
    pub log: Vec<u32>,
    pub places: usize,
    pub out: [u64; 6 + FENCE],
    /// What else the call must not have done.
    found: Option<String>,
}

/// Calls a function whose last arguments are the words, the log and the answer.
macro_rules! lend {
    ($lent:expr, $function:ident($($argument:expr),*)) => {
        $function(
            $($argument,)*
            $lent.words.as_ptr(),
            $lent.words.len(),
            $lent.log.as_mut_ptr(),
            $lent.places,
            $lent.out.as_mut_ptr(),
        )
    };
}
pub(crate) use lend;

impl Lent {
    pub fn new(words: Vec<u32>, places: usize) -> Self {
        let places = match places {
            ENDLESS => 4 * words.len() + 6,
            given => given,
        };
        Lent {
            words,
            taken: 0,
            log: vec![UNTOUCHED; places + FENCE],
            places,
            out: [UNTOUCHED.into(); 6 + FENCE],
            found: None,
        }
    }

    /// The words stand after those that were taken before.
    pub fn follow(&mut self, before: &[u32], taken: u64) {
        self.words.splice(..0, before.iter().copied());
        self.taken = taken;
    }

    pub fn find(&mut self, said: String) {
        self.found = Some(said);
    }

    /// The accesses and the answer; the bytes that it shows are the first of `data`.
    /// What no call may leave is told as a fault, which no list of outcomes has.
    pub fn report(&self, data: &[u8]) -> (Vec<Access>, Answer) {
        let accesses = self.accesses();
        let answer = self.fault(&accesses).or_else(|| self.answer(data));
        (accesses, answer.unwrap_or_else(|| self.strange()))
    }

    fn logged(&self) -> usize {
        usize::try_from(self.out[2]).map_or(self.places, |logged| logged.min(self.places))
    }

    pub fn accesses(&self) -> Vec<Access> {
        let pairs = self.log[..self.logged()].chunks_exact(2);
        pairs
            .map(|pair| Access {
                write: pair[0] >= WRITE,
                offset: pair[0] as u8,
                word: pair[1],
            })
            .collect()
    }

    /// Each read takes a word; the rest of the log and what lies after it stays.
    fn fault(&self, accesses: &[Access]) -> Option<Answer> {
        let reads = accesses.iter().filter(|access| !access.write).count() as u64;
        let stays = |place: &u32| *place == UNTOUCHED;
        let logged = self.logged();
        let said = if let Some(found) = &self.found {
            found.clone()
        } else if self.out[1] != self.taken + reads {
            let (taken, before) = (self.out[1], self.taken);
            format!("{taken} words taken, {before} before, {reads} reads logged")
        } else if self.out[2] != 2 * accesses.len() as u64 {
            format!("{} places of {} logged", self.out[2], self.places)
        } else if !self.log[logged..].iter().all(stays) {
            "the log is changed after its last access".to_string()
        } else if self.out[6..] != [UNTOUCHED.into(); FENCE] {
            "more than six numbers".to_string()
        } else {
            return None;
        };
        Some(Answer::Panic(said))
    }

    /// The answer of the six numbers; a value that it has not is 0.
    fn answer(&self, data: &[u8]) -> Option<Answer> {
        let [number, _, _, first, second, third] = *self.out.first_chunk().unwrap();
        let count = |n: u64| usize::try_from(n).ok();
        let shown = |n: u64| data.get(..count(n)?).map(<[u8]>::to_vec);
        let address = u16::try_from(first).ok();
        let direction = u8::try_from(second).ok();
        Some(match (number, first, second, third) {
            (0..=4 | 6..=12, 0, 0, 0) => Answer::Number(number as u8),
            (5, _, 0, 0) => Answer::Short(count(first)?),
            (0x44, ..) => Answer::Data(address?, direction?, shown(third)?),
            (0x41, _, _, 0) => Answer::Addressed(address?, direction?),
            (0x45, _, 0, 0) => Answer::Errors(count(first)?),
            (0x47, _, 0, 0) => Answer::Shown(shown(first)?),
            (0x4E, _, 0, 0) => Answer::Address(address?),
            _ => return None,
        })
    }

    fn strange(&self) -> Answer {
        Answer::Panic(format!("no answer has the numbers {:?}", &self.out[..6]))
    }
}
