//! The answers 6 to 12 and what they leave, from document 01's table: where the
//! rewritten module refuses and the Rust stops, waits for ever or goes on.
//!
//! 9 and 10 of a call that never waits are in `run_unwaited`, those of a
//! waiting call in the scripted block: the Rust's own run says which words
//! and how much room it needs.

use crate::call::*;
use crate::waiting::Parked;
use original_nonblocking::i2c::peek::Fields;

/// The error count stops here; the Rust would count on.
pub const MOST_ERRORS: usize = 4_294_967_295;

/// A call that takes a link, before any access: 12, then 6 of `slave_write`.
pub fn of_link_call(call: &LinkCall, link: &Fields) -> Option<u8> {
    if impossible(link) {
        return Some(12);
    }
    match call {
        LinkCall::SlaveWrite { bytes } if bad_length(bytes.len()) => Some(6),
        _ => None,
    }
}

/// Where the Rust reads START and then stops at its assertion on the length:
/// the read stays logged and the link stays as it was, the watchdog too.
pub fn of_panic(call: &LinkCall) -> Option<u8> {
    match call {
        LinkCall::MasterWrite { bytes, .. } | LinkCall::MasterWriteRead { bytes, .. }
            if bad_length(bytes.len()) =>
        {
            Some(6)
        }
        _ => None,
    }
}

/// A blocking call that waits, at its begin: each of its slices.
pub fn of_begin(call: &Begin) -> Option<u8> {
    let bad = call.kind.sends() && bad_length(call.send.len())
        || call.kind.receives() && bad_length(call.recv.len());
    bad.then_some(6)
}

/// `bl resume`: a call was begun, has not ended, and has the slices' lengths.
pub fn of_resume(parked: Option<&Parked>, send: &[u8], recv: &[u8]) -> Option<u8> {
    let goes_on = parked.is_some_and(|parked| {
        !parked.over && parked.send_length == send.len() && parked.recv_length == recv.len()
    });
    (!goes_on).then_some(11)
}

/// A constructor or `timing_bits`: 8 while the configuration is built, then 7;
/// both before any access.
pub fn of_construction(construction: &Construction) -> Option<u8> {
    match construction.settings.filter {
        Some(Filter::Setter(cycles)) if bad_filter(cycles) => Some(8),
        _ if no_rate(construction) => Some(7),
        _ => None,
    }
}

/// A call of the blocking driver or of its configuration that never waits.
pub fn of_unwaited(call: &UnwaitedCall) -> Option<u8> {
    match call {
        UnwaitedCall::New(construction) | UnwaitedCall::Timing(construction) => {
            of_construction(construction)
        }
        UnwaitedCall::Filter(cycles) if bad_filter(*cycles) => Some(8),
        _ => None,
    }
}

/// "Index above length, a length above 255, watchdog above 10"; the second
/// half's length is a length too.
fn impossible(link: &Fields) -> bool {
    link.index > link.length
        || link.length > 255
        || link.length_write_read > 255
        || link.watchdog > 10
}

/// "A byte slice of 0 or over 255."
fn bad_length(length: usize) -> bool {
    length == 0 || length > 255
}

/// "Above 16 in the setter."
fn bad_filter(cycles: u8) -> bool {
    cycles > 16
}

/// "Neither timing nor speed, speed 0, or q too small"; an explicit timing is
/// returned as given.
fn no_rate(construction: &Construction) -> bool {
    let (prescaler, least) = match construction.settings.speed {
        _ if construction.settings.timing.is_some() => return false,
        None | Some(0) => return true,
        Some(1..=100_000) => (3, 5),
        Some(_) => (1, 7),
    };
    let speed = construction.settings.speed.unwrap_or(0);
    construction.clock / 2 / (prescaler + 1) / speed < least
}
