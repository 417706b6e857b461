//! The comparing of outcomes.

use oracle::compare::{compare, differences, Compared};

const SCRIPT: &str = "# two calls\nnb check | 2\n\nnb check | 4\n";
const NONE_BESIDE: &str = "0 set-up lines and 0 bad lines beside the calls\n";
const OUTCOMES: &str = "> 2\n= 1\n> 4\n= 9\n";

fn compared(ours: &str, theirs: &str) -> (bool, String) {
    let mut out = Vec::new();
    let same = compare(
        SCRIPT.as_bytes(),
        ours.as_bytes(),
        theirs.as_bytes(),
        &mut out,
    )
    .unwrap();
    (same, String::from_utf8(out).unwrap())
}

#[test]
fn equal_outcomes() {
    let found = compared(OUTCOMES, OUTCOMES);
    let text = format!("2 calls, 0 differences; {NONE_BESIDE}");
    assert_eq!(found, (true, text));
}

#[test]
fn calls_alone_count_as_calls() {
    let script =
        "nb reset\nnb set len=2\nnb check | 2\ncfg period 0\nbl resume\nnb set wd=x\nnonsense\n";
    let outcomes: String = (1..=7).map(|n| format!("> {n}\n= 0\n")).collect();
    let mut out = Vec::new();
    let compared = differences(
        script.as_bytes(),
        outcomes.as_bytes(),
        outcomes.as_bytes(),
        &mut out,
    )
    .unwrap();
    let expected = Compared {
        calls: 3,
        set_up: 2,
        bad: 2,
        differences: 0,
    };
    assert_eq!(compared, expected);
    // A set-up line that differs is a difference too.
    let other = outcomes.replacen("= 0", "= 1", 1);
    let compared = differences(
        script.as_bytes(),
        outcomes.as_bytes(),
        other.as_bytes(),
        &mut out,
    )
    .unwrap();
    assert_eq!(compared.differences, 1);
}

#[test]
fn a_differing_call_is_shown() {
    let (same, text) = compared(OUTCOMES, "> 2\n= 1\n> 4\n= 10\n");
    assert!(!same);
    let shown = "line 4: nb check | 4\n  ours:\n    = 9\n  theirs:\n    = 10\n";
    assert_eq!(
        text,
        format!("{shown}2 calls, 1 differences; {NONE_BESIDE}")
    );
}

#[test]
fn a_missing_or_added_outcome_is_a_difference() {
    for theirs in [
        "",
        "> 2\n= 1\n",
        "> 2\n= 1\n> 4\n= 9\n> 5\n= 0\n",
        "x\n> 2\n= 1\n> 4\n= 9\n",
    ] {
        assert!(!compared(OUTCOMES, theirs).0, "{theirs}");
        assert!(!compared(theirs, OUTCOMES).0, "{theirs}");
    }
    assert!(!compared("", "").0);
    // A cut last line is not the same.
    assert!(!compared(OUTCOMES, OUTCOMES.trim_end()).0);
}
