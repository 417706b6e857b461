//! Document 01's walk example.

use crate::common::{played, without};
use oracle::player::Ruling;

const SCRIPT: &str = "\
nb master_write_read 50 0140 2 | 0 0
nb check | 2
nb check | 2
nb check | 40
nb check | 4 3C
nb check | 4 7E
nb check | 20
";

const PRINTED: &str = "\
R 04 00000000
R 04 00000000
W 04 000220A0
= 0
R 18 00000002
W 28 00000001
= 1
R 18 00000002
W 28 00000040
= 1
R 18 00000040
W 04 020224A0
= 1
R 18 00000004
R 24 0000003C
= 1
R 18 00000004
R 24 0000007E
= 1
R 18 00000020
W 1C 00000020
= D 0050 1 3C7E
";

#[test]
fn prints_the_example() {
    for ruling in [Ruling::Rust, Ruling::Document] {
        let outcomes = played(ruling, SCRIPT);
        assert_eq!(without(&outcomes, &['>', 'S']), PRINTED);
    }
}

#[test]
fn shows_the_link_after_each_call() {
    let outcomes = played(Ruling::Rust, SCRIPT);
    let links: Vec<_> = outcomes
        .lines()
        .filter(|line| line.starts_with('S'))
        .collect();
    assert_eq!(links.len(), 7);
    let zeros = "00".repeat(253);
    assert_eq!(links[0], format!("S 0050 10 0 2 0 2 0140{zeros}"));
    assert_eq!(links[2], format!("S 0050 10 2 2 0 2 0140{zeros}"));
    assert_eq!(links[3], format!("S 0050 10 0 2 0 0 0140{zeros}"));
    assert_eq!(links[6], format!("S 0050 0 2 2 0 0 3C7E{zeros}"));
}
