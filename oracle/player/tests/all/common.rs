//! What the tests share: playing a script given as text.

use oracle::player::{play, Ruling};

/// The outcomes of a script.
pub fn played(ruling: Ruling, script: &str) -> String {
    let mut out = Vec::new();
    play(ruling, script.as_bytes(), &mut out).unwrap();
    String::from_utf8(out).unwrap()
}

/// The outcomes without the lines that start with one of these characters.
#[allow(dead_code)]
pub fn without(outcomes: &str, left_out: &[char]) -> String {
    let kept = outcomes.lines().filter(|line| !line.starts_with(left_out));
    kept.map(|line| format!("{line}\n")).collect()
}

/// Both players' accesses and answer of the last line of a script, which must
/// be the same.
#[allow(dead_code)]
pub fn both(script: &str) -> String {
    let [rust, document] = [Ruling::Rust, Ruling::Document].map(|ruling| last(ruling, script));
    assert_eq!(rust, document, "{script}");
    rust
}

/// The accesses and the answer of the last line of a script.
#[allow(dead_code)]
pub fn last(ruling: Ruling, script: &str) -> String {
    let outcomes = format!("\n{}", played(ruling, script));
    let (_, last) = outcomes.rsplit_once("\n> ").unwrap();
    let (_, outcome) = last.split_once('\n').unwrap();
    without(outcome, &['S', 'B'])
}
