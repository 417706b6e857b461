//! Waiting calls that park and are resumed.

use crate::common::{last, played, without};
use oracle::cuts::scenes;
use oracle::player::Ruling::{Document, Rust};

/// Accesses of all lines, and the answer and the buffer of the last one.
fn joined(outcomes: &str) -> String {
    let accesses: String = without(outcomes, &['>', '=', 'B']);
    let answer = outcomes
        .lines()
        .rfind(|line| line.starts_with('='))
        .unwrap();
    let buffer = outcomes.lines().rfind(|line| line.starts_with('B'));
    format!("{accesses}{answer}\n{}", buffer.unwrap_or("B -"))
}

#[test]
fn cut_anywhere() {
    for scene in scenes() {
        let whole = joined(&played(Document, &scene.whole));
        for script in scene.cut {
            let cut = played(Document, &script);
            assert_eq!(joined(&cut), whole, "{script}");
            assert_eq!(cut, played(Rust, &script));
            // Each line but the last parks where it is cut.
            let (parked, full) = (script.lines().count() - 1, script.matches(" log=").count());
            assert_eq!(cut.matches("\n= 10\n").count(), full, "{script}");
            assert_eq!(cut.matches("\n= 9\n").count(), parked - full, "{script}");
        }
    }
}

#[test]
fn a_log_of_just_enough_places() {
    for scene in scenes() {
        let outcomes = played(Document, &scene.whole);
        let accesses = without(&outcomes, &['>', '=', 'B']).lines().count();
        let lent = |places: usize| scene.whole.replace(" |", &format!(" log={places} |"));
        assert_eq!(played(Document, &lent(2 * accesses)), outcomes);
        assert!(last(Document, &lent(2 * accesses - 1)).ends_with("= 10\n"));
    }
}

#[test]
fn out_of_words_goes_before_log_full() {
    assert_eq!(last(Document, "bl write 50 01 log=0"), "= 9\n");
    assert_eq!(last(Document, "bl write 50 01 log=0 | 0"), "= 10\n");
    // A write needs room only.
    let script = "bl write 50 01 | 0 0\nbl resume log=1\nbl resume log=2 | 2";
    assert_eq!(last(Document, script), "R 18 00000002\n= 10\n");
}

#[test]
fn untaken_words_are_forgotten() {
    let script = "bl write 50 01 log=2 | 0 FFFFFFFF 100\nbl resume | 0 200";
    let resumed = "R 04 00000000\nW 04 020120A0\nR 18 00000200\nW 1C 00000200\n= 4\n";
    assert_eq!(last(Document, script), resumed);
}

#[test]
fn resumed_after_its_end_or_with_nothing_begun() {
    for script in [
        "bl resume | 0",
        "nb check | 0\nbl slave_addressed | 0\nbl resume",
        "bl write 50 01 | 0 0 100\nbl resume | 0",
        "bl write 50 01 | 0 0 20 0 0\nbl resume | 0",
        "bl read 50 - | 0\nbl resume | 0",
        "bl read 50 5Ax256 | 0\nbl resume | 0",
    ] {
        for ruling in [Rust, Document] {
            assert_eq!(last(ruling, script), "= 11\n", "{script}");
        }
    }
}

#[test]
fn other_slices_of_the_begun_lengths_go_on() {
    let script = "bl write 50 0102 | 0 0 2\nbl resume send=A1A2 | 2\nbl resume send=01 | 2";
    let outcomes = played(Document, script);
    assert!(outcomes.contains("W 28 000000A2\n= 9\nB -\n"));
    assert!(outcomes.ends_with("> 3\n= 11\nB -\n"));

    // Bytes received earlier stay out of another buffer.
    let script = "bl read 50 AABBCC | 0 0 0 4 11\nbl resume recv=000000 | 4 0\nbl resume | 4 33";
    let outcomes = played(Document, script);
    assert!(outcomes.contains("= 9\nB 11BBCC\n> 2\n"));
    assert!(outcomes.contains("= 9\nB 000000\n> 3\n"));
    assert!(outcomes.ends_with("= 9\nB 000033\n"));
}

#[test]
fn slices_of_other_lengths_are_refused_until_others_are_lent() {
    let script = "bl read 50 AABB | 0 0 0\nbl resume recv=001122 | 4 11\nbl resume | 4 11\nbl resume recv=0011 | 4 77";
    let outcomes = played(Document, script);
    assert!(outcomes.contains("> 2\n= 11\nB 001122\n> 3\n= 11\nB 001122\n"));
    assert!(outcomes.ends_with("R 24 00000077\n= 9\nB 7711\n"));
    // A slice lent to a call that has none, unless it is empty.
    let script = "bl slave_wait_addressed | 0\nbl resume send=01 | 0\nbl resume send=- recv=- | 0";
    let outcomes = played(Document, script);
    assert!(outcomes.ends_with("> 2\n= 11\nB -\n> 3\nR 18 00000000\n= 9\nB -\n"));
}

#[test]
fn a_stop_after_254_bytes_answers_done() {
    let sent = |count: usize| {
        let words = " 2".repeat(count);
        last(
            Document,
            &format!("bl write_read 50 5Ax{count} 0000 | 0{words} 20 0 0"),
        )
    };
    assert!(sent(253).ends_with("= 5 253\n"));
    assert!(sent(254).ends_with("= 0\n"));
    assert!(sent(255).ends_with("= 5 255\n"));
}
