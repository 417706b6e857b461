//! The rows of document 01's bench table.

use crate::common::{both, last};
use oracle::player::Ruling;

#[test]
fn timing_words_and_period() {
    assert_eq!(both("cfg timing 16000000 speed=100000"), "= V 30420F13\n");
    assert_eq!(both("cfg period 30420F13"), "= P 144\n");
    assert_eq!(both("cfg timing 4000000 speed=100000"), "= V 30420004\n");
    assert_eq!(both("cfg timing 64000000 speed=400000"), "= V 10312127\n");
    assert_eq!(both("cfg timing 11200000 speed=400000"), "= V 10310006\n");
}

#[test]
fn no_rate_where_the_rust_overflows() {
    for script in [
        "cfg timing 3999999 speed=100000",
        "cfg timing 11199999 speed=400000",
    ] {
        assert_eq!(last(Ruling::Document, script), "= 7\n");
        assert_eq!(
            last(Ruling::Rust, script),
            "! attempt to subtract with overflow\n"
        );
    }
}

#[test]
fn own_addresses() {
    let has = |script: &str, line: &str| {
        assert!(both(script).lines().any(|found| found == line), "{script}");
    };
    for driver in ["nb", "bl"] {
        has(
            &format!("{driver} new 0 timing=0 own7=2A | 0 0 0"),
            "W 08 00008054",
        );
        has(
            &format!("{driver} new 0 timing=0 own2=30:1 | 0 0 0"),
            "W 0C 00008160",
        );
    }
    has("nb new 0 timing=0 own10=123 | 0 0 0", "W 08 00008523");
    has("bl new 0 timing=0 own10=123 | 0 0 0", "W 08 00008446");
}

#[test]
fn master_write() {
    let accepted = "R 04 00000000\nR 04 00000000\nW 04 020220A0\n= 0\n";
    assert_eq!(both("nb master_write 50 0140 | 0 0"), accepted);
    let start_set = "R 04 00002000\n= 1\n";
    assert_eq!(both("nb master_write 50 - | 2000"), start_set);
    assert_eq!(
        last(Ruling::Document, "nb master_write 50 - | 0 0"),
        "R 04 00000000\n= 6\n"
    );
    assert!(both("nb master_write 50 5Ax255 | 0 0").ends_with("W 04 02FF20A0\n= 0\n"));
    let too_long = "nb master_write 50 5Ax256 | 0 0";
    assert_eq!(last(Ruling::Document, too_long), "R 04 00000000\n= 6\n");
}

#[test]
fn stop_on_a_fresh_link() {
    assert_eq!(both("nb check | 20"), "R 18 00000020\nW 1C 00000020\n= 2\n");
    assert_eq!(both("nb check | 20\nnb errors"), "= E 1\n");
}

#[test]
fn readings_to_rule_out() {
    // Direction is 0 where DIR is set.
    assert!(both("nb check | 10008").ends_with("= A 0000 0\n"));
    // RXNE goes before STOPF.
    let read = "nb master_read 50 1 | 0 0 0\nnb check | 24 7E";
    assert_eq!(both(read), "R 18 00000024\nR 24 0000007E\n= 1\n");
    // CR2 is formed from the second read.
    let started = both("nb master_write 50 01 | C000 8000");
    assert!(started.ends_with("W 04 0201A0A0\n= 0\n"));
    // A lost bus is no error.
    assert_eq!(both("nb check | 200\nnb errors"), "= E 0\n");
}
