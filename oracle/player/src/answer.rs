//! Outcomes as text.

pub use chip::tape::Access;
pub use original_nonblocking::i2c::peek::Fields;
use std::io::Write;

/// What stands after `= `, or after `! `.
pub enum Answer {
    /// A number of document 01's table without values, or 0 for done.
    Number(u8),
    /// 5, with the count.
    Short(usize),
    Data(u16, u8, Vec<u8>),
    Addressed(u16, u8),
    Errors(usize),
    Shown(Vec<u8>),
    Address(u16),
    Word(u32),
    Period(u32),
    /// The message of a panic.
    Panic(String),
}

pub const DONE: Answer = Answer::Number(0);

/// Hex digits, capitals, of the low `digits` digits of a number.
fn hex(out: &mut Vec<u8>, value: u32, digits: u32) {
    for digit in (0..digits).rev() {
        out.push(b"0123456789ABCDEF"[(value >> (4 * digit) & 15) as usize]);
    }
}

/// Bytes as hex pairs, `-` for none.
fn bytes(out: &mut Vec<u8>, bytes: &[u8]) {
    if bytes.is_empty() {
        out.push(b'-');
    }
    for &byte in bytes {
        hex(out, byte.into(), 2);
    }
}

/// Writing into a vector cannot fail.
macro_rules! text {
    ($out:expr, $($format:tt)+) => {
        write!($out, $($format)+).expect("a vector takes all")
    };
}

pub fn number_line(out: &mut Vec<u8>, number: u64) {
    text!(out, "> {number}\n");
}

pub fn bad_line(out: &mut Vec<u8>) {
    out.extend_from_slice(b"? bad line\n");
}

pub fn access_line(out: &mut Vec<u8>, access: &Access) {
    out.extend_from_slice(if access.write { b"W " } else { b"R " });
    hex(out, access.offset.into(), 2);
    out.push(b' ');
    hex(out, access.word, 8);
    out.push(b'\n');
}

pub fn answer_line(out: &mut Vec<u8>, answer: &Answer) {
    if let Answer::Panic(message) = answer {
        text!(out, "! {message}\n");
        return;
    }
    out.extend_from_slice(b"= ");
    match answer {
        Answer::Number(number) => text!(out, "{number}"),
        Answer::Short(count) => text!(out, "5 {count}"),
        Answer::Data(address, direction, data) => {
            text!(out, "D {address:04X} {direction} ");
            bytes(out, data);
        }
        Answer::Addressed(address, direction) => text!(out, "A {address:04X} {direction}"),
        Answer::Errors(count) => text!(out, "E {count}"),
        Answer::Shown(data) => {
            out.extend_from_slice(b"G ");
            bytes(out, data);
        }
        Answer::Address(address) => text!(out, "N {address:04X}"),
        Answer::Word(word) => text!(out, "V {word:08X}"),
        Answer::Period(cycles) => text!(out, "P {cycles}"),
        Answer::Panic(_) => {}
    }
    out.push(b'\n');
}

pub fn link_line(out: &mut Vec<u8>, link: &Fields) {
    text!(
        out,
        "S {:04X} {} {} {} {} {} ",
        link.address,
        link.watchdog,
        link.index,
        link.length,
        link.errors,
        link.length_write_read
    );
    bytes(out, &link.data);
    out.push(b'\n');
}

pub fn buffer_line(out: &mut Vec<u8>, buffer: &[u8]) {
    out.extend_from_slice(b"B ");
    bytes(out, buffer);
    out.push(b'\n');
}
