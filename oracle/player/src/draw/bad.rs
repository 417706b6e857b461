//! Lines at the edge of the grammar: bad ones, and some that are only just good.

use super::Drawer;

/// Each is a bad line but those of the last group.
const LINES: [&str; 70] = [
    "nb",
    "nb check extra",
    "nb Check",
    "NB check",
    "check",
    "bl",
    "bl check",
    "cfg",
    "cfg speed 1",
    "|",
    " ",
    "\t",
    " | 1",
    "nb check\t| 2",
    "nb check\r",
    "nb check |2",
    "nb check| 2",
    "nb check | 2 | 4",
    "nb check | 2 log=4",
    "nb check | 123456789",
    "nb check | 0x2",
    "nb check | 2 g",
    "nb check log=4 log=4",
    "nb check log=65536 | 2",
    "nb check log= | 2",
    "nb check log=-1 | 2",
    "nb check log=a | 2",
    "nb log=4 check",
    "nb new log=8 16000000 speed=100000 | 0 0",
    "nb master_write 50",
    "nb master_write 10000 01 | 0 0",
    "nb master_write 000000050 01 | 0 0",
    "nb master_write 50 1 | 0 0",
    "nb master_write 50 01x | 0 0",
    "nb master_write 50 01X3 | 0 0",
    "nb master_write 50 x3 | 0 0",
    "nb master_write 50 0102x3 | 0 0",
    "nb master_write 50 01x16385 | 0 0",
    "nb master_write_read 50 01 256 | 0 0",
    "nb master_read 50 256 | 0 0 0",
    "nb master_read 50 +2 | 0 0 0",
    "nb master_read 50 000000000000000000002 | 0 0 0",
    "nb sbc 2",
    "nb sbc 01",
    "nb set wd=65536",
    "nb set err=4294967296",
    "nb set idx=18446744073709551616",
    "nb set len=1 len=1",
    "nb set data=01x256",
    "nb set data=",
    "nb set Len=1",
    "nb set len",
    "nb set =1",
    "nb new",
    "nb new 4294967296 speed=1",
    "bl new 16000000 speed=100000 speed=100000 | 0 0",
    "bl new 16000000 filter=1 dnf=1 timing=0 | 0 0",
    "bl new 16000000 own7=1 own10=1 timing=0 | 0 0 0",
    "bl new 16000000 own2=30:8 timing=0 | 0 0 0",
    "bl new 16000000 own2=30 timing=0 | 0 0 0",
    "bl new 16000000 analog=1 timing=0 | 0 0",
    "bl write 100 01 | 0 0",
    "bl resume send=01 send=01",
    "bl listen both | 0",
    "cfg filter 256",
    // Good ones.
    "  nb   check   log=6   |   2  ",
    "nb master_read 00000050 00000000000000000002 | 00000000 0 0",
    "nb set",
    "nb reset log=0 | 1 2 3",
    "cfg period 30420f13 log=0 | 1",
];

impl Drawer {
    pub fn bad_line(&mut self) {
        match self.random.below(400) {
            0 => {
                let words = [4_096, 4_097][self.random.below(2)];
                self.line(&format!("nb check |{}", " 2".repeat(words)));
            }
            1 => {
                let blanks = 32_768 - "nb check | 2".len() + self.random.below(2);
                self.line(&format!("nb check{} | 2", " ".repeat(blanks)));
            }
            2 => {
                let count = self.random.pick(&[301, 16_384]);
                self.line(&format!("bl slave_read 5Ax{count}"));
            }
            _ => {
                let line = self.random.pick(&LINES);
                self.line(line);
            }
        }
    }
}
