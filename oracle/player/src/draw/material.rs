//! What drawn calls are made of: register words, lengths, addresses, bytes.

use super::Drawer;

pub const BERR: u32 = 1 << 8;
pub const ARLO: u32 = 1 << 9;
pub const NACKF: u32 = 1 << 4;
pub const TXIS: u32 = 1 << 1;
pub const RXNE: u32 = 1 << 2;
pub const STOPF: u32 = 1 << 5;
pub const TC: u32 = 1 << 6;
pub const TCR: u32 = 1 << 7;
pub const ADDR: u32 = 1 << 3;
pub const DIR: u32 = 1 << 16;
pub const START: u32 = 1 << 13;

/// The flags in the order in which `check_isr_flags` looks at them.
const ORDER: [u32; 9] = [BERR, ARLO, NACKF, TXIS, RXNE, STOPF, TC, TCR, ADDR];
const FLAGS: u32 = 0x3FE;

impl Drawer {
    /// Bits of an ISR word that are no flag: TXE, DIR, ADDCODE, unused places.
    fn junk(&mut self) -> u32 {
        match self.random.below(4) {
            0 => 0,
            1 => self.random.word32() & 1,
            2 => self.random.word32() & 0x00FF_0001,
            _ => self.random.word32() & !FLAGS,
        }
    }

    /// An ISR word that is taken as `flag`: no earlier flag, perhaps later ones.
    pub fn taken_as(&mut self, flag: u32) -> u32 {
        let place = ORDER.iter().position(|&other| other == flag);
        let later = ORDER[place.map_or(9, |place| place + 1)..]
            .iter()
            .sum::<u32>();
        let more = match self.random.below(4) {
            0 => self.random.word32() & later,
            _ => 0,
        };
        flag | more | self.junk()
    }

    /// An ISR word with any set of flags.
    pub fn any_flags(&mut self) -> u32 {
        let flags = match self.random.below(8) {
            0 => 0,
            1 => FLAGS,
            2..=4 => self.random.pick(&ORDER),
            5 => self.random.pick(&ORDER) | self.random.pick(&ORDER),
            _ => self.random.word32() & FLAGS,
        };
        flags | self.junk()
    }

    /// A CR2 word, mostly without START.
    pub fn cr2(&mut self) -> u32 {
        let word = match self.random.below(3) {
            0 => 0,
            1 => self.random.word32() & 0x03FF_EFFF,
            _ => self.random.word32(),
        };
        match self.random.below(30) {
            0 => word | START,
            _ => word & !START,
        }
    }

    /// A length of a transfer, often small, now and then at an edge.
    pub fn length(&mut self) -> usize {
        match self.random.below(16) {
            0 => self.random.pick(&[0, 254, 255, 256, 300]),
            1 => self.random.below(256),
            _ => self.random.pick(&[1, 1, 2, 2, 3, 4, 5, 7]),
        }
    }

    /// A length that a transfer can have.
    pub fn good_length(&mut self) -> usize {
        self.length().clamp(1, 255)
    }

    pub fn address16(&mut self) -> String {
        let address = match self.random.below(8) {
            0 => self.random.word32() & 0xFFFF,
            1 => self
                .random
                .pick(&[0, 0x7F, 0x80, 0x3FF, 0x400, 0x7FFF, 0x8000, 0xFFFF]),
            _ => self.random.word32() & 0x7F,
        };
        match self.random.below(8) {
            0 => format!("{address:04x}"),
            _ => format!("{address:X}"),
        }
    }

    pub fn address8(&mut self) -> String {
        let address = match self.random.below(4) {
            0 => self.random.word32() & 0xFF,
            1 => self.random.pick(&[0, 0x7F, 0x80, 0xFF]),
            _ => self.random.word32() & 0x7F,
        };
        format!("{address:02X}")
    }

    /// BYTES of a length.
    pub fn bytes(&mut self, length: usize) -> String {
        if length == 0 {
            return self.random.pick(&["-", "-", "-", "A5x0"]).to_string();
        }
        if length > 12 && !self.random.one_in(8) {
            return format!("{:02X}x{length}", self.random.word() as u8);
        }
        (0..length)
            .map(|_| format!("{:02X}", self.random.word() as u8))
            .collect()
    }
}
