//! Scenes of the non-blocking driver: transfers that come to their end or are
//! disturbed, storms of flags, forged links.

use super::material::*;
use super::Drawer;

impl Drawer {
    pub fn link_scene(&mut self) {
        match self.random.below(16) {
            0..=2 => self.master_write(),
            3..=5 => self.master_write_read(),
            6 | 7 => self.master_read(),
            8 | 9 => self.slave_receives(),
            10 | 11 => self.slave_sends(),
            12 => self.watchdog_runs(),
            13 => self.storm(),
            14 => self.forged_possible(),
            _ => self.forged_impossible(),
        }
        if self.random.one_in(3) {
            self.other_call();
        }
    }

    /// A check whose ISR word is `isr`, with enough further words.
    fn check(&mut self, isr: u32) {
        let second = match self.random.below(3) {
            0 => self.any_flags() | RXNE,
            1 => self.cr2(),
            _ => self.random.word32(),
        };
        let third = self.random.word32();
        self.call("nb check", &[isr, second, third]);
    }

    /// `count` checks taken as `flag`, mostly all of them, now and then
    /// disturbed; of a long run mostly only a part.
    fn checks(&mut self, flag: u32, count: usize) {
        let count = match count {
            0..=8 => count,
            _ if self.random.one_in(6) => count,
            _ => self.random.below(8),
        };
        for _ in 0..count {
            if self.disturbed(16) {
                self.disturb();
            }
            let isr = self.taken_as(flag);
            self.check(isr);
        }
    }

    /// The check that ends a part of a transfer, now and then disturbed or none.
    fn end(&mut self, flag: u32) {
        if self.disturbed(12) {
            self.disturb();
        }
        if !self.disturbed(12) {
            self.checks(flag, 1);
        }
    }

    fn disturb(&mut self) {
        match self.random.below(4) {
            0 => self.other_call(),
            1 => self.call("nb watchdog", &[]),
            _ => {
                let isr = self.any_flags();
                self.check(isr);
            }
        }
    }

    fn start_words(&mut self) -> [u32; 3] {
        [self.cr2(), self.cr2(), self.cr2()]
    }

    fn master_write(&mut self) {
        let (address, length) = (self.address16(), self.length());
        let (bytes, words) = (self.bytes(length), self.start_words());
        self.call(&format!("nb master_write {address} {bytes}"), &words);
        self.checks(TXIS, length);
        self.end(STOPF);
    }

    fn master_write_read(&mut self) {
        let (address, length) = (self.address16(), self.length());
        let (bytes, words) = (self.bytes(length), self.start_words());
        let wanted = self.length().min(255);
        self.call(
            &format!("nb master_write_read {address} {bytes} {wanted}"),
            &words,
        );
        self.checks(TXIS, length);
        self.end(TC);
        self.checks(RXNE, wanted);
        self.end(STOPF);
    }

    fn master_read(&mut self) {
        let (address, wanted) = (self.address16(), self.length().min(255));
        let words = self.start_words();
        self.call(&format!("nb master_read {address} {wanted}"), &words);
        let over = self.random.below(8) / 6;
        self.checks(RXNE, wanted + over);
        self.end(STOPF);
    }

    fn slave_receives(&mut self) {
        let isr = self.taken_as(ADDR) & !DIR;
        self.check(isr);
        let count = self.length();
        self.checks(RXNE, count);
        if self.random.one_in(4) {
            self.checks(TCR, 1);
        }
        self.end(STOPF);
    }

    fn slave_sends(&mut self) {
        let isr = self.taken_as(ADDR) | DIR;
        self.check(isr);
        let length = self.length();
        let (bytes, word) = (self.bytes(length), self.cr2());
        self.call(&format!("nb slave_write {bytes}"), &[word]);
        self.checks(TXIS, length);
        self.end(NACKF);
        self.end(STOPF);
    }

    fn watchdog_runs(&mut self) {
        let (address, words) = (self.address16(), self.start_words());
        self.call(&format!("nb master_read {address} 2"), &words);
        for _ in 0..8 + self.random.below(6) {
            let words = [self.random.word32(), self.random.word32(), 0];
            self.call("nb watchdog", &words);
        }
    }

    fn storm(&mut self) {
        for _ in 0..3 + self.random.below(12) {
            let isr = self.any_flags();
            self.check(isr);
        }
    }

    /// A link as some history can leave it, or nearly.
    fn forged_possible(&mut self) {
        let length = self.good_length() - self.random.below(2);
        let index = match self.random.below(4) {
            0 => 0,
            1 => length,
            2 => length.saturating_sub(1),
            _ => self.random.below(length + 1),
        };
        let (address, second) = (self.address16(), self.length().min(255));
        let watchdog = self.random.pick(&[0, 1, 2, 9, 10]);
        let errors = self.random.pick(&[0, 1, u32::MAX - 1, u32::MAX]);
        let count = self.random.pick(&[0, 1, 3, 255]);
        let data = self.bytes(count);
        self.call(
            &format!("nb set data={data} err={errors} addr={address} len={length} idx={index} second={second} wd={watchdog}"),
            &[],
        );
        for _ in 0..1 + self.random.below(6) {
            self.disturb();
        }
        if self.random.one_in(3) {
            self.call("nb errors", &[]);
        }
    }

    /// A link that no history leaves: every call refuses it until it is set anew.
    fn forged_impossible(&mut self) {
        let wrong = match self.random.below(6) {
            0 => "len=3 idx=4",
            1 => "len=256 idx=0",
            2 => "second=256",
            3 => "wd=11",
            4 => "wd=65535 len=255 idx=255 second=255",
            _ => "len=18446744073709551615 idx=18446744073709551615",
        };
        self.call(&format!("nb set {wrong}"), &[]);
        for _ in 0..1 + self.random.below(5) {
            self.disturb();
        }
        if self.random.one_in(2) {
            let (address, words) = (self.address16(), self.start_words());
            self.call(&format!("nb master_write {address} 0102"), &words);
        }
        match self.random.below(2) {
            0 => self.call("nb reset", &[]),
            _ => self.call("nb set idx=0 len=2 second=0 wd=0", &[]),
        }
    }

    /// Any call of the driver that is no check.
    fn other_call(&mut self) {
        let (length, address) = (self.length(), self.address16());
        let bytes = self.bytes(length);
        let call = match self.random.below(18) {
            0 => format!("nb master_write {address} {bytes}"),
            1 => format!("nb master_write_read {address} {bytes} {}", length.min(255)),
            2 => format!("nb master_read {address} {}", length.min(255)),
            3 => format!("nb slave_write {bytes}"),
            4 => format!("nb set_address {address}"),
            5 | 6 => "nb errors".to_string(),
            7 | 8 => "nb data_m".to_string(),
            9 | 10 => "nb data_s".to_string(),
            11 => "nb addr_m".to_string(),
            12 => "nb addr_s".to_string(),
            13 => "nb listen".to_string(),
            14 => "nb unlisten".to_string(),
            15 => format!("nb sbc {}", length % 2),
            16 => "nb reset".to_string(),
            _ => "nb watchdog".to_string(),
        };
        let words = match self.random.below(3) {
            0 => [
                START | self.random.word32(),
                self.random.word32(),
                self.cr2(),
            ],
            _ => self.start_words(),
        };
        self.call(&call, &words);
    }
}
