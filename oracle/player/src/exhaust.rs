//! The exhaustive part: every set of document 01's ten ISR flags, over every
//! branch of `check_isr_flags` and over every wait of the blocking driver; and
//! waiting calls cut at every pair of places.

use crate::cuts::scenes;
use std::io::{self, Write};

const SETS: u32 = 1 << 10;
const DIR: u32 = 1 << 16;
const RXNE: u32 = 1 << 2;

/// Index, length and second-half length of a link: index 0, in the middle, at
/// the last place and full; length 0, 1 and 255; a second half or none.
const LINKS: [(usize, usize, usize); 14] = [
    (0, 0, 0),
    (0, 0, 7),
    (0, 1, 0),
    (0, 1, 7),
    (1, 1, 0),
    (1, 1, 7),
    (0, 255, 0),
    (0, 255, 7),
    (100, 255, 0),
    (100, 255, 255),
    (254, 255, 0),
    (254, 255, 255),
    (255, 255, 0),
    (255, 255, 255),
];

/// A blocking call and the words that bring it to one of its waits.
const WAITS: [(&str, &str); 21] = [
    ("bl write 50 010203", "0 0"),
    ("bl write 50 010203", "2000 0 0 2"),
    ("bl write D1 010203", "0 FFFFFFFF 2 2 2"),
    ("bl write 50 5Ax1", "0 0 90"),
    ("bl read 51 000000", "0 AA 0"),
    ("bl read 51 000000", "0 AA 0 4 11"),
    ("bl read FF 000000", "2000 0 AA FFFFFFFF 4 11 4 22 4 133"),
    ("bl write_read 52 0102 0000", "0"),
    ("bl write_read 52 0102 0000", "0 2"),
    ("bl write_read 52 0102 0000", "0 2 2"),
    ("bl write_read 52 0102 0000", "0 2 2 40"),
    ("bl write_read 52 0102 0000", "0 2 2 40 4 11"),
    ("bl write_read 52 0102 0000", "0 2 2 40 4 11 4 22"),
    ("bl slave_write 0102", "0"),
    ("bl slave_write 0102", "FFFFFFFF 2"),
    ("bl slave_write 0102", "0 2 2"),
    ("bl slave_write 0102", "0 2 2 2"),
    ("bl slave_read 0000", "0"),
    ("bl slave_read 0000", "0 0"),
    ("bl slave_read 0000", "FFFFFFFF 4 99 4 11"),
    ("bl slave_read 0000", "0 0 4 11 4 22"),
];

pub fn exhaust(out: &mut impl Write) -> io::Result<()> {
    writeln!(
        out,
        "# every set of flags over the links of check_isr_flags"
    )?;
    for (index, length, second) in LINKS {
        writeln!(out, "nb set data=A5x255")?;
        for word in words().flat_map(|word| [word, word | DIR]) {
            writeln!(
                out,
                "nb set addr=52 wd=7 idx={index} len={length} err=3 second={second}"
            )?;
            // The second read: of ISR with RXNE and without, or of CR2.
            let again = if word & DIR == 0 { RXNE } else { 0 } | 0x00AB_CD00 | word & 0xF0;
            writeln!(out, "nb check | {word:X} {again:X} {:X}", word ^ 0xC3)?;
        }
    }
    writeln!(
        out,
        "# every set of flags in each wait of the blocking driver"
    )?;
    for (call, before) in WAITS {
        every_word(out, call, before, 0)?;
    }
    writeln!(out, "# the wait for TC after 253, 254 and 255 bytes")?;
    for sent in [253, 254, 255] {
        let call = format!("bl write_read 52 5Ax{sent} 0000");
        every_word(out, &call, &format!("0{}", " 2".repeat(sent)), 0)?;
    }
    writeln!(out, "# the calls that answer a direction")?;
    for call in ["bl slave_wait_addressed", "bl slave_addressed"] {
        every_word(out, call, "", 0)?;
        every_word(out, call, "", DIR)?;
    }
    writeln!(
        out,
        "# waiting calls uncut, and cut at every pair of places"
    )?;
    for scene in scenes() {
        out.write_all(scene.whole.as_bytes())?;
        out.write_all(scene.cut.concat().as_bytes())?;
    }
    Ok(())
}

/// Every set of the ten flags, with some address code.
fn words() -> impl Iterator<Item = u32> {
    (0..SETS).map(|set| set | (((set * 37) & 0x7F) << 17))
}

/// The call at its wait, then the word, then enough words to end or park.
fn every_word(out: &mut impl Write, call: &str, before: &str, dir: u32) -> io::Result<()> {
    for word in words() {
        // The two flush reads of a stop see TXIS and TXE each set and not.
        let [first, second] = [word >> 17 & 3, word >> 19 & 3];
        writeln!(
            out,
            "{call} | {before} {:X} {:X} {:X} {second:X} {first:X} 20 0 0",
            word | dir,
            first | dir,
            second | 0x20
        )?;
    }
    Ok(())
}
