//! Lines of any length, in bounded memory.

use crate::parse::MOST_CHARACTERS;
use std::io::{self, BufRead};

/// Reads the next line without its newline; false at the end of the input. Of
/// a line that is too long, one character too many is kept.
pub fn next_line(input: &mut impl BufRead, line: &mut Vec<u8>) -> io::Result<bool> {
    line.clear();
    let mut begun = false;
    loop {
        let part = input.fill_buf()?;
        if part.is_empty() {
            return Ok(begun);
        }
        begun = true;
        let end = part.iter().position(|&byte| byte == b'\n');
        let text = &part[..end.unwrap_or(part.len())];
        let room = MOST_CHARACTERS + 1 - line.len();
        line.extend_from_slice(&text[..text.len().min(room)]);
        let used = text.len() + usize::from(end.is_some());
        input.consume(used);
        if end.is_some() {
            return Ok(true);
        }
    }
}

/// Lines without an outcome: empty ones and comments, however long.
pub fn is_skipped(line: &[u8]) -> bool {
    line.is_empty() || line[0] == b'#'
}
