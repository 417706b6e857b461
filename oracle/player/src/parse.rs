//! From a line to its call; `None` is a bad line.
//!
//! What is decided about bad lines (the same in GRAMMAR.md):
//! - a line of more than 32,768 characters or 4,096 words is one;
//! - tokens are separated by spaces alone, one or more; spaces may also stand
//!   first and last; a tab or a carriage return belongs to its token;
//! - `|` is a token of its own; everything after it is a word;
//! - names, keys and `x` are in the case written in GRAMMAR.md, hex in either;
//! - a decimal has 1 to 20 digits and a hex number 1 to 8, leading zeros
//!   count, no sign and no prefix; then the value must be in its range;
//! - hex pairs come in an even number, not 0; a count after `x` is at most
//!   16,384, and BYTES of `nb set data=` has at most 255 bytes;
//! - `log=` is the last token before the `|`, once, 0 to 65,535; every line
//!   may have it and words, also one that makes no access;
//! - options come in any order, none twice; of `filter` and `dnf` at most one,
//!   of `own7`, `own10` and `own7raw` at most one; `analog` only as `analog=0`;
//! - an argument too many or too few is a bad line.

use crate::call::*;
use crate::lexis::*;
pub use chip::tape::ENDLESS;

/// The most characters of a line.
pub const MOST_CHARACTERS: usize = 32_768;
/// The most words of a line.
const MOST_WORDS: usize = 4_096;

/// What a line with an outcome is.
#[derive(Clone, Copy, PartialEq, Eq, Debug)]
pub enum Sort {
    /// A call of a driver or of its configuration.
    Call,
    /// `nb reset` and `nb set`: they put the link where a call is to find it.
    SetUp,
    Bad,
}

/// What a line is that is no comment and not empty.
pub fn sort(line: &[u8]) -> Sort {
    match parse(line, &mut Vec::new()) {
        Some((Call::LinkReset | Call::LinkSet(_), _)) => Sort::SetUp,
        Some(_) => Sort::Call,
        None => Sort::Bad,
    }
}

/// Reads a line; its words go into `words`, the log's places come with the call.
pub fn parse(line: &[u8], words: &mut Vec<u32>) -> Option<(Call, usize)> {
    words.clear();
    if line.len() > MOST_CHARACTERS {
        return None;
    }
    let mut tokens = line.split(|&byte| byte == b' ').filter(|t| !t.is_empty());
    let mut before: Vec<&[u8]> = tokens.by_ref().take_while(|&t| t != b"|").collect();
    for token in tokens {
        if words.len() == MOST_WORDS {
            return None;
        }
        words.push(hex32(token)?);
    }
    let log = before.last().and_then(|token| token.strip_prefix(b"log="));
    let places = log.map_or(Some(ENDLESS), |n| decimal16(n).map(usize::from))?;
    if log.is_some() {
        before.pop();
    }
    Some((call(&before)?, places))
}

fn call(tokens: &[&[u8]]) -> Option<Call> {
    match tokens {
        [b"nb", rest @ ..] => non_blocking(rest),
        [b"bl", rest @ ..] => blocking(rest),
        [b"cfg", b"timing", rest @ ..] => unwaited(UnwaitedCall::Timing(construction(rest)?)),
        [b"cfg", b"filter", n] => unwaited(UnwaitedCall::Filter(decimal8(n)?)),
        [b"cfg", b"period", word] => unwaited(UnwaitedCall::Period(hex32(word)?)),
        _ => None,
    }
}

fn unwaited(call: UnwaitedCall) -> Option<Call> {
    Some(Call::Unwaited(call))
}

fn non_blocking(tokens: &[&[u8]]) -> Option<Call> {
    let call = match tokens {
        [b"reset"] => return Some(Call::LinkReset),
        [b"set", values @ ..] => return Some(Call::LinkSet(link_values(values)?)),
        [b"new", rest @ ..] => return Some(Call::LinkNew(construction(rest)?)),
        [b"master_write", a, b] => LinkCall::MasterWrite {
            address: hex16(a)?,
            bytes: bytes(b)?,
        },
        [b"master_write_read", a, b, n] => LinkCall::MasterWriteRead {
            address: hex16(a)?,
            bytes: bytes(b)?,
            read_length: decimal8(n)?,
        },
        [b"master_read", a, n] => LinkCall::MasterRead {
            address: hex16(a)?,
            length: decimal8(n)?,
        },
        [b"slave_write", b] => LinkCall::SlaveWrite { bytes: bytes(b)? },
        [b"check"] => LinkCall::Check,
        [b"watchdog"] => LinkCall::Watchdog,
        [b"errors"] => LinkCall::Errors,
        [b"data_m"] => LinkCall::MasterData,
        [b"data_s"] => LinkCall::SlaveData,
        [b"addr_m"] => LinkCall::MasterAddress,
        [b"addr_s"] => LinkCall::SlaveAddress,
        [b"listen"] => LinkCall::Listen,
        [b"unlisten"] => LinkCall::Unlisten,
        [b"sbc", on] => LinkCall::Sbc(switch(on)?),
        [b"set_address", a] => LinkCall::SetAddress(hex16(a)?),
        _ => return None,
    };
    Some(Call::Link(call))
}

fn blocking(tokens: &[&[u8]]) -> Option<Call> {
    match tokens {
        [b"write", a, send] => begin(Kind::Write, a, send, b"-"),
        [b"read", a, recv] => begin(Kind::Read, a, b"-", recv),
        [b"write_read", a, send, recv] => begin(Kind::WriteRead, a, send, recv),
        [b"slave_write", send] => begin(Kind::SlaveWrite, b"0", send, b"-"),
        [b"slave_read", recv] => begin(Kind::SlaveRead, b"0", b"-", recv),
        [b"slave_wait_addressed"] => begin(Kind::SlaveWaitAddressed, b"0", b"-", b"-"),
        [b"resume", slices @ ..] => resume(slices),
        [b"new", rest @ ..] => unwaited(UnwaitedCall::New(construction(rest)?)),
        [b"slave_addressed"] => unwaited(UnwaitedCall::SlaveAddressed),
        [b"sbc", on] => unwaited(UnwaitedCall::Sbc(switch(on)?)),
        [b"listen", e] => unwaited(UnwaitedCall::Listen(event(e)?)),
        [b"unlisten", e] => unwaited(UnwaitedCall::Unlisten(event(e)?)),
        [b"clear_irq", e] => unwaited(UnwaitedCall::ClearIrq(event(e)?)),
        _ => None,
    }
}

fn begin(kind: Kind, address: &[u8], send: &[u8], recv: &[u8]) -> Option<Call> {
    Some(Call::Begin(Begin {
        kind,
        address: hex8(address)?,
        send: bytes(send)?,
        recv: bytes(recv)?,
    }))
}

fn resume(slices: &[&[u8]]) -> Option<Call> {
    let (mut send, mut recv) = (None, None);
    for token in slices {
        match option(token)? {
            (b"send", b) => once(&mut send, bytes(b)?)?,
            (b"recv", b) => once(&mut recv, bytes(b)?)?,
            _ => return None,
        }
    }
    Some(Call::Resume { send, recv })
}

fn switch(token: &[u8]) -> Option<bool> {
    match token {
        b"0" => Some(false),
        b"1" => Some(true),
        _ => None,
    }
}

fn event(token: &[u8]) -> Option<Event> {
    match token {
        b"addr" => Some(Event::AddressMatch),
        b"rxne" => Some(Event::Rxne),
        _ => None,
    }
}

fn link_values(tokens: &[&[u8]]) -> Option<LinkValues> {
    let mut values = LinkValues::default();
    for token in tokens {
        match option(token)? {
            (b"addr", a) => once(&mut values.address, hex16(a)?)?,
            (b"wd", n) => once(&mut values.watchdog, decimal16(n)?)?,
            (b"idx", n) => once(&mut values.index, decimal64(n)?)?,
            (b"len", n) => once(&mut values.length, decimal64(n)?)?,
            (b"err", n) => once(&mut values.errors, decimal32(n)?)?,
            (b"second", n) => once(&mut values.second, decimal64(n)?)?,
            (b"data", b) => {
                let data = bytes(b).filter(|data| data.len() <= 255)?;
                once(&mut values.data, data)?
            }
            _ => return None,
        }
    }
    Some(values)
}

fn construction(tokens: &[&[u8]]) -> Option<Construction> {
    let (clock, options) = tokens.split_first()?;
    let clock = decimal32(clock)?;
    let mut settings = Settings::default();
    for token in options {
        match option(token)? {
            (b"speed", n) => once(&mut settings.speed, decimal32(n)?)?,
            (b"timing", word) => once(&mut settings.timing, hex32(word)?)?,
            (b"analog", b"0") if !settings.analog_off => settings.analog_off = true,
            (b"filter", n) => once(&mut settings.filter, Filter::Setter(decimal8(n)?))?,
            (b"dnf", n) => once(&mut settings.filter, Filter::Field(decimal8(n)?))?,
            (b"own7", a) => once(&mut settings.own, Own::Seven(hex8(a)?))?,
            (b"own10", a) => once(&mut settings.own, Own::Ten(hex16(a)?))?,
            (b"own7raw", a) => once(&mut settings.own, Own::SevenRaw(hex16(a)?))?,
            (b"own2", value) => once(&mut settings.own2, masked(value)?)?,
            _ => return None,
        }
    }
    Some(Construction { clock, settings })
}

/// `A:M`, an address of 8 bits and a mask of 0 to 7.
fn masked(value: &[u8]) -> Option<(u8, u8)> {
    let at = value.iter().position(|&character| character == b':')?;
    let mask = decimal(&value[at + 1..], 7)? as u8;
    Some((hex8(&value[..at])?, mask))
}
