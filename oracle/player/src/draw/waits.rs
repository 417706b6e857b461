//! Scenes of the blocking driver: waiting calls cut anywhere, resumed with the
//! rest of their words, with other slices, and after their end.

use super::material::*;
use super::Drawer;
use crate::call::Kind;

impl Drawer {
    pub fn waiting_scene(&mut self) {
        if self.random.one_in(8) {
            return self.unwaited_call();
        }
        let kind = self.random.pick(&[
            Kind::Write,
            Kind::Read,
            Kind::WriteRead,
            Kind::WriteRead,
            Kind::SlaveWrite,
            Kind::SlaveRead,
            Kind::SlaveWaitAddressed,
        ]);
        let send = match kind {
            // The wait for TC compares with 254.
            Kind::WriteRead if self.random.one_in(20) => self.random.pick(&[253, 254, 255]),
            _ if kind.sends() => self.length(),
            _ => 0,
        };
        let recv = if kind.receives() { self.length() } else { 0 };
        let words = match self.random.below(5) {
            0 => (0..self.random.below(30))
                .map(|_| self.any_flags())
                .collect(),
            _ => self.transfer_words(kind, send, recv),
        };
        let (address, bytes, buffer) = (self.address8(), self.bytes(send), self.bytes(recv));
        let begin = match kind {
            Kind::Write => format!("bl write {address} {bytes}"),
            Kind::Read => format!("bl read {address} {buffer}"),
            Kind::WriteRead => format!("bl write_read {address} {bytes} {buffer}"),
            Kind::SlaveWrite => format!("bl slave_write {bytes}"),
            Kind::SlaveRead => format!("bl slave_read {buffer}"),
            Kind::SlaveWaitAddressed => "bl slave_wait_addressed".to_string(),
        };
        self.in_pieces(&begin, words, send, recv);
    }

    /// Gives the words piece by piece; what was not taken is given again.
    fn in_pieces(&mut self, begin: &str, words: Vec<u32>, send: usize, recv: usize) {
        let mut rest = words.as_slice();
        self.piece(begin, &mut rest);
        for _ in 0..self.random.below(9) {
            if !self.player.is_parked() && !self.random.one_in(8) {
                return;
            }
            let resume = match self.answered(11) {
                true => format!(
                    "bl resume recv={} send={}",
                    self.bytes(recv),
                    self.bytes(send)
                ),
                false => self.resume(send, recv),
            };
            if self.random.one_in(10) {
                self.unwaited_call();
            }
            if rest.is_empty() && self.random.one_in(2) {
                let more = [self.any_flags(), self.any_flags(), self.any_flags()];
                self.piece(&resume, &mut more.as_slice());
            } else {
                self.piece(&resume, &mut rest);
            }
        }
    }

    /// One line over the first of the words, often all, often with a small log.
    fn piece(&mut self, call: &str, rest: &mut &[u32]) {
        let given = match self.random.below(3) {
            0 => self.random.below(rest.len() + 1),
            _ => rest.len(),
        };
        let log = match self.random.below(8) {
            0 => Some(self.random.below(10)),
            1 => Some(self.random.below(60)),
            _ => None,
        };
        self.line_with(call, log, &rest[..given]);
        if self.player.is_parked() {
            *rest = &rest[self.player.words_taken().min(given)..];
        }
    }

    fn resume(&mut self, send: usize, recv: usize) -> String {
        let mut call = "bl resume".to_string();
        if self.random.one_in(6) {
            let length = self.lent(send);
            call += &format!(" send={}", self.bytes(length));
        }
        if self.random.one_in(6) {
            let length = self.lent(recv);
            call += &format!(" recv={}", self.bytes(length));
        }
        call
    }

    /// Mostly the begun length, else another.
    fn lent(&mut self, begun: usize) -> usize {
        match self.random.below(6) {
            0 => begun + 1,
            1 => self.length(),
            _ => begun,
        }
    }

    /// Words in the order in which a call reads them, mostly up to its end.
    fn transfer_words(&mut self, kind: Kind, send: usize, recv: usize) -> Vec<u32> {
        let mut words = Vec::new();
        if matches!(kind, Kind::Write | Kind::Read | Kind::WriteRead) {
            for _ in 0..self.random.pick(&[0, 0, 0, 1, 3]) {
                words.push(self.cr2() | START);
            }
            words.push(self.cr2() & !START);
        }
        match kind {
            Kind::Write | Kind::SlaveWrite => words.push(self.cr2()),
            Kind::Read => words.extend([self.random.word32(), self.cr2()]),
            Kind::SlaveRead => {
                words.push(self.cr2());
                words.push(self.any_flags());
                if words[1] & RXNE != 0 {
                    words.push(self.random.word32());
                }
            }
            Kind::WriteRead => {}
            Kind::SlaveWaitAddressed => {
                for _ in 0..self.random.below(4) {
                    words.push(self.any_flags() & !ADDR);
                }
                words.extend([self.any_flags() | ADDR, self.any_flags()]);
                return words;
            }
        }
        if kind.sends() {
            for _ in 0..self.part_of(send) {
                self.wait(TXIS, &mut words);
            }
        }
        let stopped_early = self.random.one_in(if send > 252 { 2 } else { 12 });
        if kind == Kind::WriteRead && stopped_early {
            self.ending(kind, &mut words);
            return words;
        }
        if kind == Kind::WriteRead {
            self.wait(TC, &mut words);
        }
        if kind.receives() {
            for _ in 0..self.part_of(recv) {
                self.wait(RXNE, &mut words);
                words.push(self.random.word32());
            }
        }
        self.ending(kind, &mut words);
        words
    }

    /// Mostly the whole length, else fewer or more.
    fn part_of(&mut self, length: usize) -> usize {
        match self.random.below(10) {
            0 => self.random.below(length + 1),
            1 => length + self.random.below(3),
            _ => length,
        }
    }

    /// A wait: words that keep it waiting, then one with the wanted flag.
    fn wait(&mut self, wanted: u32, words: &mut Vec<u32>) {
        while self.random.one_in(5) {
            match self.random.below(4) {
                0 => words.push(self.taken_as(NACKF) & !(wanted | BERR | ARLO)),
                1 => {
                    words.push(TCR);
                    words.push(self.cr2());
                }
                _ => words.push(self.random.word32() & !0x3FE),
            }
        }
        let more = match self.random.below(4) {
            0 => self.any_flags(),
            _ => 0,
        };
        words.push(wanted | more);
    }

    fn ending(&mut self, kind: Kind, words: &mut Vec<u32>) {
        let wanted = if kind.receives() { RXNE } else { TXIS };
        if self.random.one_in(8) {
            words.push(wanted);
        }
        match self.random.below(10) {
            0 => words.push(ADDR | self.random.word32() & !0x3FE),
            1 => words.push(BERR | self.any_flags() & !wanted),
            2 => words.push(ARLO | self.any_flags() & !(wanted | BERR)),
            3 => {}
            4 => words.extend([NACKF, STOPF, self.any_flags(), self.any_flags()]),
            _ => words.extend([STOPF, self.any_flags(), self.any_flags()]),
        }
    }

    /// A call of the blocking driver that never waits.
    fn unwaited_call(&mut self) {
        let call = self.random.pick(&[
            "bl slave_addressed",
            "bl slave_addressed",
            "bl slave_addressed",
            "bl sbc 0",
            "bl sbc 1",
            "bl listen addr",
            "bl listen rxne",
            "bl unlisten addr",
            "bl unlisten rxne",
            "bl clear_irq addr",
            "bl clear_irq rxne",
        ]);
        let words = [self.any_flags(), self.any_flags()];
        self.call(call, &words);
    }
}
