//! The answers 6 to 12 with what they leave behind.

use crate::common::{last, played};
use oracle::player::Ruling::{Document, Rust};

/// The last `S` line of a script up to the bytes.
fn link(script: &str) -> String {
    let outcomes = played(Document, script);
    let line = outcomes
        .lines()
        .rfind(|line| line.starts_with('S'))
        .unwrap();
    line.rsplit_once(' ').unwrap().0.to_string()
}

#[test]
fn bad_length_keeps_the_link() {
    let script = "nb set wd=3\nnb master_write_read 50 - 2 | 0";
    assert_eq!(last(Document, script), "R 04 00000000\n= 6\n");
    assert_eq!(link(script), "S 0000 3 0 0 0 0");
    let message = "R 04 00000000\n! assertion failed: buflen < 256 && buflen > 0\n";
    assert_eq!(last(Rust, script), message);
}

#[test]
fn bad_length_of_a_start_comes_after_9_10_and_1() {
    assert_eq!(last(Document, "nb master_write 50 -"), "= 9\n");
    assert_eq!(last(Document, "nb master_write 50 - log=1 | 0"), "= 10\n");
    assert_eq!(
        last(Document, "nb master_write 50 - log=2 | 2000"),
        "R 04 00002000\n= 1\n"
    );
    assert_eq!(
        last(Document, "nb master_write 50 - log=2 | 0"),
        "R 04 00000000\n= 6\n"
    );
}

#[test]
fn bad_length_of_the_others_comes_before_any_access() {
    for call in [
        "nb slave_write -",
        "nb slave_write 5Ax256",
        "bl write 50 -",
        "bl read 50 5Ax256",
        "bl write_read 50 01 -",
        "bl write_read 50 - 01",
        "bl slave_write 5Ax300",
        "bl slave_read -",
    ] {
        assert_eq!(last(Document, call), "= 6\n", "{call}");
        assert_eq!(
            last(Document, &format!("{call} log=0 | 0 0 0")),
            "= 6\n",
            "{call}"
        );
        assert!(
            last(Rust, &format!("{call} | 0 0 0")).starts_with("! assertion"),
            "{call}"
        );
    }
}

#[test]
fn lengths_that_are_numbers_may_be_0() {
    assert!(last(Document, "nb master_read 50 0 | 0 0 0").ends_with("= 0\n"));
    assert!(last(Document, "nb master_write_read 50 01 0 | 0 0").ends_with("= 0\n"));
}

#[test]
fn no_rate_and_bad_filter_come_before_9() {
    for (options, number) in [
        ("16000000", 7),
        ("16000000 speed=0", 7),
        ("3999999 speed=100000", 7),
        ("4000000 speed=100000", 9),
        ("0 timing=0 speed=0", 9),
        ("16000000 speed=0 filter=17", 8),
        ("16000000 timing=0 filter=16", 9),
        ("16000000 timing=0 dnf=17", 9),
    ] {
        for driver in ["nb", "bl"] {
            let script = format!("{driver} new {options}");
            assert_eq!(last(Document, &script), format!("= {number}\n"), "{script}");
        }
    }
    assert_eq!(
        last(Rust, "bl new 0 | FFFFFFFF"),
        "R 00 FFFFFFFF\nW 00 FFFFFFFE\n! called `Option::unwrap()` on a `None` value\n"
    );
    assert_eq!(
        last(Rust, "nb new 0 speed=0 | 1"),
        "R 00 00000001\nW 00 00000000\n! attempt to divide by zero\n"
    );
    assert_eq!(last(Document, "cfg filter 17"), "= 8\n");
    assert_eq!(
        last(Rust, "cfg filter 17"),
        "! assertion failed: cycles <= 16\n"
    );
    assert_eq!(last(Document, "cfg filter 16"), "= V 00000010\n");
}

#[test]
fn a_refused_constructor_leaves_the_link() {
    let before = "nb set addr=12 wd=3 len=2 idx=1 err=9 second=4\n";
    for call in [
        "nb new 0",
        "nb new 0 timing=0 | 0",
        "nb new 0 timing=0 log=9 | 0 0",
    ] {
        assert_eq!(link(&format!("{before}{call}")), "S 0012 3 1 2 9 4");
    }
    assert_eq!(
        link(&format!("{before}nb new 0 timing=0 log=10 | 0 0")),
        "S 0000 0 0 0 0 0"
    );
}

#[test]
fn a_call_that_never_waits_is_tried_for_9_then_for_10() {
    for ruling in [Rust, Document] {
        let full = "nb set wd=1 idx=1 len=1\n";
        assert_eq!(last(ruling, &format!("{full}nb check log=0 | 4")), "= 9\n");
        assert_eq!(
            last(ruling, &format!("{full}nb check log=5 | 4 4 7")),
            "= 10\n"
        );
        let flushed = "R 18 00000004\nR 18 00000004\nR 24 00000007\n= 1\n";
        assert_eq!(
            last(ruling, &format!("{full}nb check log=6 | 4 4 7")),
            flushed
        );
        assert_eq!(
            last(ruling, &format!("{full}nb watchdog log=9 | 0 0 0")),
            "= 10\n"
        );
        assert_eq!(last(ruling, "bl slave_addressed log=0 | 8"), "= 9\n");
        assert_eq!(last(ruling, "bl slave_addressed log=3 | 8 8"), "= 10\n");
        assert_eq!(last(ruling, "bl clear_irq addr log=1"), "= 10\n");
        assert_eq!(last(ruling, "bl clear_irq rxne log=0"), "= 0\n");
    }
    let refused = "nb set wd=1 idx=1 len=1\nnb watchdog log=9 | 0 0 0";
    assert_eq!(link(refused), "S 0000 1 1 1 0 0");
}

#[test]
fn an_impossible_link_is_refused_by_every_call_that_takes_one() {
    for wrong in ["len=1 idx=2", "len=256", "second=256", "wd=11"] {
        for call in [
            "master_write 50 -",
            "master_write_read 50 01 1",
            "master_read 50 1",
            "slave_write -",
            "check",
            "watchdog",
            "errors",
            "data_m",
            "data_s",
            "addr_m",
            "addr_s",
            "listen",
            "unlisten",
            "sbc 1",
            "set_address 12",
        ] {
            let script = format!("nb set {wrong}\nnb {call} log=0");
            assert_eq!(last(Document, &script), "= 12\n", "{script}");
        }
        assert!(last(
            Document,
            &format!("nb set {wrong}\nnb new 0 timing=0 | 0 0")
        )
        .ends_with("= 0\n"));
    }
    let most = "nb set len=255 idx=255 second=255 wd=10\nnb addr_m";
    assert_eq!(last(Document, most), "= N 0000\n");
}

#[test]
fn the_error_count_stops_at_its_top() {
    for step in [
        "nb check | 100",
        "nb set idx=0 len=1\nnb check | 20",
        "nb set wd=1\nnb watchdog | 0 0 0",
    ] {
        let script = format!("nb set err=4294967295\n{step}\nnb errors");
        assert_eq!(last(Document, &script), "= E 4294967295\n");
        assert_eq!(last(Rust, &script), "= E 4294967296\n");
    }
}
