//! `play` and `expect` agree on the domain, and drawing is reproducible.

use crate::common::played;
use oracle::draw::draw;
use oracle::exhaust::exhaust;
use oracle::parse::{sort, Sort};
use oracle::player::{Player, Ruling};

fn drawn(seed: u64, calls: u64) -> String {
    let mut script = Vec::new();
    draw(seed, calls, &mut script).unwrap();
    String::from_utf8(script).unwrap()
}

/// How many lines with an outcome are of this sort.
fn lines_of(script: &str, wanted: Sort) -> usize {
    let counts =
        |line: &&str| !line.is_empty() && !line.starts_with('#') && sort(line.as_bytes()) == wanted;
    script.lines().filter(counts).count()
}

#[test]
fn the_same_seed_draws_the_same_script() {
    assert_eq!(drawn(7, 5_000), drawn(7, 5_000));
    assert_ne!(drawn(7, 5_000), drawn(8, 5_000));
    assert_eq!(lines_of(&drawn(7, 5_000), Sort::Call), 5_000);
    assert!(lines_of(&drawn(7, 5_000), Sort::SetUp) > 0);
    assert!(lines_of(&drawn(7, 5_000), Sort::Bad) > 0);
}

#[test]
fn the_exhaustive_script_is_in_the_domain() {
    let mut script = Vec::new();
    exhaust(&mut script).unwrap();
    let script = String::from_utf8(script).unwrap();
    assert_eq!(lines_of(&script, Sort::Call), 66_117);
    assert_eq!(lines_of(&script, Sort::SetUp), 28_686);
    assert_eq!(lines_of(&script, Sort::Bad), 0);
    assert!(played(Ruling::Rust, &script) == played(Ruling::Document, &script));
}

/// The answer's number, 0 where it has none.
fn number(outcome: &str) -> u8 {
    let answer = outcome.lines().find_map(|line| line.strip_prefix("= "));
    let first = answer.and_then(|answer| answer.split(' ').next());
    first.and_then(|number| number.parse().ok()).unwrap_or(0)
}

/// Plays a drawn script in both players, each call from the same link, and
/// hands on the line, both outcomes and whether the Rust counted on.
fn side_by_side(seed: u64, mut look: impl FnMut(&str, &str, &str, bool)) {
    let (mut rust, mut document) = (Player::new(Ruling::Rust), Player::new(Ruling::Document));
    for line in drawn(seed, 60_000).lines() {
        rust.set_link(&document.link());
        let [by_rust, by_document] = [&mut rust, &mut document].map(|player| {
            let mut out = Vec::new();
            player.line(1, line.as_bytes(), &mut out);
            String::from_utf8(out).unwrap()
        });
        let past_top = rust.link().errors > 4_294_967_295;
        look(line, &by_rust, &by_document, past_top);
    }
}

#[test]
fn drawn_calls_agree_unless_document_01_refuses() {
    let mut answered = [0; 13];
    side_by_side(11, |line, by_rust, by_document, past_top| {
        let number = number(by_document);
        answered[usize::from(number)] += 1;
        if !matches!(number, 6 | 7 | 8 | 12) && !past_top {
            assert_eq!(by_rust, by_document, "{line}");
        }
    });
    assert!(
        answered.iter().all(|&count| count > 0),
        "the drawing misses one of {answered:?}"
    );
}

#[test]
fn the_rust_stops_exactly_where_document_01_has_6_7_or_8() {
    side_by_side(12, |line, by_rust, by_document, _| {
        let stopped = by_rust.contains("\n! ");
        match number(by_document) {
            // The Rust takes any link.
            12 => {}
            // Words or log may end before the Rust comes to its stop.
            6..=8 => assert!(
                stopped || by_rust.contains("\n= 9\n") || by_rust.contains("\n= 10\n"),
                "{line}"
            ),
            _ => assert!(!stopped, "{line}"),
        }
    });
}
