//! Plays a script through the library, line by line.

use crate::blocking::{self, Unwaited, Waiting};
use crate::functions::Link;
use crate::lent::Lent;
use crate::link;
use crate::settings::numbers;
use oracle::answer::*;
use oracle::call::{Call, UnwaitedCall};
use oracle::parse::parse;

/// What is kept from line to line.
pub struct Player {
    link: Link,
    waiting: Waiting,
    /// The calls made through functions of the library.
    pub calls: u64,
}

/// What follows the answer.
enum After {
    Nothing,
    Link,
    Buffer,
}

impl Player {
    pub fn new() -> Self {
        Player {
            link: Link::fresh(),
            waiting: Waiting::new(),
            calls: 0,
        }
    }

    /// Plays a line that is no comment; false, and no outcome, where the library
    /// has no function for it.
    pub fn line(&mut self, number: u64, line: &[u8], out: &mut Vec<u8>) -> bool {
        let mut words = Vec::new();
        let Some((call, places)) = parse(line, &mut words) else {
            number_line(out, number);
            bad_line(out);
            return true;
        };
        let mut lent = Lent::new(words, places);
        let after = match call {
            Call::LinkReset => {
                self.link = Link::fresh();
                self.put(number, out);
                return true;
            }
            Call::LinkSet(values) => {
                self.link.set(&values);
                self.put(number, out);
                return true;
            }
            Call::LinkNew(with) => match numbers(&with.settings) {
                Some(config) => {
                    link::construct(&mut self.link, &config, with.clock, &mut lent);
                    After::Link
                }
                None => return false,
            },
            Call::Link(call) => {
                link::call(&mut self.link, &call, &mut lent);
                After::Link
            }
            Call::Begin(begin) => {
                let receives = begin.kind.receives();
                self.waiting.begin(begin, &mut lent);
                match receives {
                    true => After::Buffer,
                    false => After::Nothing,
                }
            }
            Call::Resume { send, recv } => {
                self.waiting.resume(send, recv, &mut lent);
                After::Buffer
            }
            Call::Unwaited(call) => {
                if !unwaited(call, &mut lent) {
                    return false;
                }
                After::Nothing
            }
        };
        self.calls += 1;
        number_line(out, number);
        self.show(&lent, after, out);
        true
    }

    /// `nb reset` and `nb set` write into this program's own memory.
    fn put(&self, number: u64, out: &mut Vec<u8>) {
        number_line(out, number);
        answer_line(out, &DONE);
        link_line(out, &self.link.fields());
    }

    fn show(&self, lent: &Lent, after: After, out: &mut Vec<u8>) {
        let (accesses, answer) = lent.report(&self.link.data);
        accesses.iter().for_each(|access| access_line(out, access));
        answer_line(out, &answer);
        match after {
            After::Nothing => {}
            After::Link => link_line(out, &self.link.fields()),
            After::Buffer => buffer_line(out, &self.waiting.recv),
        }
    }
}

/// False for the configuration's own calls, which the library has not.
fn unwaited(call: UnwaitedCall, lent: &mut Lent) -> bool {
    let call = match call {
        UnwaitedCall::New(with) => {
            let config = numbers(&with.settings);
            if let Some(config) = &config {
                blocking::construct(config, with.clock, lent);
            }
            return config.is_some();
        }
        UnwaitedCall::SlaveAddressed => Unwaited::SlaveAddressed,
        UnwaitedCall::Sbc(on) => Unwaited::Sbc(on),
        UnwaitedCall::Listen(event) => Unwaited::Listen(event),
        UnwaitedCall::Unlisten(event) => Unwaited::Unlisten(event),
        UnwaitedCall::ClearIrq(event) => Unwaited::ClearIrq(event),
        UnwaitedCall::Timing(_) | UnwaitedCall::Filter(_) | UnwaitedCall::Period(_) => {
            return false
        }
    };
    blocking::unwaited(call, lent);
    true
}
