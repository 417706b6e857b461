//! Which lines are calls.

use crate::common::played;
use oracle::player::Ruling;

fn is_bad(line: &str) -> bool {
    let outcome = played(Ruling::Document, line);
    assert!(outcome.starts_with("> 1\n"), "{line}");
    outcome == "> 1\n? bad line\n"
}

#[test]
fn calls() {
    for line in [
        "nb check",
        "  nb   check   log=6  |  2  ",
        "nb check |",
        "nb check | 0 00000000 ffffFFFF",
        "nb check log=0",
        "nb check log=65535",
        "nb reset log=0 | 1",
        "nb set",
        "nb set data=- second=18446744073709551615 addr=ffff err=4294967295 wd=65535 idx=0 len=0",
        "nb set data=01x255",
        "nb master_write 0000ffff aAbB",
        "nb master_write 50 01x0",
        "nb master_write 50 01x16384",
        "nb master_read 50 00000000000000000255",
        "nb new 4294967295 own2=ff:7 own7=ff dnf=255 analog=0 timing=0 speed=0",
        "bl new 0 own7raw=ffff filter=255",
        "bl new 0 own10=ffff",
        "bl write ff -",
        "bl resume recv=- send=01",
        "bl clear_irq rxne",
        "cfg timing 0",
        "cfg filter 255",
        "cfg period 0",
    ] {
        assert!(!is_bad(line), "{line}");
    }
}

#[test]
fn bad_lines() {
    for line in [
        "nb",
        " ",
        "\t",
        "|",
        "nb check\r",
        "nb\tcheck",
        "NB check",
        "nb check extra",
        "nb check |2",
        "nb check| 2",
        "nb check | 2 | 2",
        "nb check | 000000001",
        "nb check | 0x2",
        "nb check log=4 extra",
        "nb check log=4 log=4",
        "nb check log=65536",
        "nb check log=",
        "nb log=4 check",
        "nb new log=4 0 timing=0",
        "nb check | 0 log=4",
        "nb set wd=65536",
        "nb set err=4294967296",
        "nb set idx=18446744073709551616",
        "nb set len=1 len=1",
        "nb set data=01x256",
        "nb set data=",
        "nb set len",
        "nb set Len=1",
        "nb master_write 10000 01",
        "nb master_write 000000050 01",
        "nb master_write 50 012",
        "nb master_write 50 01X2",
        "nb master_write 50 01x",
        "nb master_write 50 01x16385",
        "nb master_write 50 0102x2",
        "nb master_write 50 --",
        "nb master_write_read 50 01 256",
        "nb master_read 50 256",
        "nb master_read 50 +1",
        "nb master_read 50 000000000000000000001",
        "nb sbc 2",
        "nb sbc 00",
        "nb new",
        "nb new speed=1",
        "nb new 4294967296",
        "nb new 0 analog=1",
        "nb new 0 analog=0 analog=0",
        "nb new 0 filter=1 dnf=1",
        "nb new 0 own7=1 own10=1",
        "nb new 0 own7=1 own7raw=1",
        "nb new 0 own7=100",
        "nb new 0 own2=30",
        "nb new 0 own2=30:8",
        "nb new 0 own2=:1",
        "nb new 0 own2=30:",
        "bl write 100 01",
        "bl read 50",
        "bl slave_wait_addressed 50",
        "bl resume 01",
        "bl resume send=01 send=01",
        "bl listen",
        "bl listen both",
        "bl reset",
        "cfg",
        "cfg filter 256",
        "cfg period 100000000",
        "cfg period",
    ] {
        assert!(is_bad(line), "{line}");
    }
}

#[test]
fn a_bad_line_changes_nothing() {
    let script = "nb set wd=5\nnb set wd=6 wd=7\nnb addr_m";
    assert!(played(Ruling::Document, script).contains("> 3\n= N 0000\nS 0000 5 "));
    let script = "bl write 50 01 | 0\nbl write 50 01 extra\nbl resume | 0";
    assert!(
        played(Ruling::Document, script).ends_with("> 3\nR 04 00000000\nW 04 020120A0\n= 9\nB -\n")
    );
}

#[test]
fn the_longest_lines() {
    let words = |count: usize| format!("nb check |{}", " 2".repeat(count));
    assert!(!is_bad(&words(4_096)));
    assert!(is_bad(&words(4_097)));
    let long = |length: usize| format!("nb check{}", " ".repeat(length - 8));
    assert!(!is_bad(&long(32_768)));
    assert!(is_bad(&long(32_769)));
    assert!(is_bad(&long(200_000)));
    // A comment may be longer, and the lines after it keep their numbers.
    let script = format!("#{}\n\n{}\nnb addr_m", "x".repeat(100_000), long(100_000));
    let outcomes = played(Ruling::Document, &script);
    assert!(outcomes.starts_with("> 3\n? bad line\n> 4\n= N 0000\n"));
}

#[test]
fn a_last_line_without_newline_counts() {
    assert_eq!(
        played(Ruling::Rust, "nb addr_m"),
        played(Ruling::Rust, "nb addr_m\n")
    );
    assert_eq!(played(Ruling::Rust, ""), "");
}
