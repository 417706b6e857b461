//! Sizes of code, from what `nm` prints, and of state.

use crate::{original, ours};
use std::mem::size_of;

/// A function on either side, in bytes.
pub struct Size {
    pub name: String,
    pub original: Option<u64>,
    pub ours: Option<u64>,
}

/// What lies in the caller's memory, in bytes.
pub struct State {
    pub name: &'static str,
    pub original: usize,
    pub ours: usize,
}

const CALLS: [&str; 11] = [
    "master_write",
    "master_write_read",
    "master_read",
    "slave_write",
    "check_isr_flags",
    "execute_watchdog",
    "get_errors_reset",
    "blocking_write",
    "blocking_read",
    "blocking_write_read",
    "blocking_resume",
];

/// The measured calls, then the functions that ours share.
pub fn code(original: &str, ours: &str) -> Vec<Size> {
    let (original, ours) = (functions(original), functions(ours));
    let call = |name: &&str| Size {
        name: format!("`{name}`"),
        original: size_of_function(&original, &format!("original_{name}")),
        ours: size_of_function(&ours, &format!("i2c_{name}")),
    };
    // Only the constructors need it, and they are not measured.
    let unmeasured = "registers::construct::set_up";
    let shared = ours.iter().filter(|(name, _)| !name.starts_with("i2c_") && !name.starts_with(unmeasured));
    let shared = shared.map(|(name, size)| Size {
        name: format!("`{name}`, shared by several"),
        original: None,
        ours: Some(*size),
    });
    CALLS.iter().map(call).chain(shared).collect()
}

/// Names and sizes of the functions in the output of `nm -S`.
fn functions(listing: &str) -> Vec<(&str, u64)> {
    listing.lines().filter_map(parsed).collect()
}

/// `address size t name`.
fn parsed(line: &str) -> Option<(&str, u64)> {
    let mut parts = line.splitn(4, ' ');
    let (_, size, kind, name) = (parts.next()?, parts.next()?, parts.next()?, parts.next()?);
    let size = u64::from_str_radix(size, 16).ok()?;
    matches!(kind, "t" | "T").then_some((name, size))
}

fn size_of_function(functions: &[(&str, u64)], name: &str) -> Option<u64> {
    functions
        .iter()
        .find(|(found, _)| *found == name)
        .map(|(_, size)| *size)
}

pub fn state() -> [State; 2] {
    [
        State {
            name: "a link of the non-blocking driver",
            original: size_of::<original::Link>(),
            ours: size_of::<ours::Link>(),
        },
        State {
            name: "a blocking call: the original's is on its stack and in its buffers only",
            original: size_of::<original::Bus>(),
            ours: size_of::<ours::Parked>(),
        },
    ]
}
