//! Scenes of the configuration: constructors, `timing_bits`, the filter setter
//! and the period.

use super::Drawer;

/// Own addresses that are only just tested as set, or lose all their bits.
const OWN_EDGES: [&str; 8] = [
    "own7=0",
    "own7=1",
    "own7=80",
    "own7raw=1",
    "own7raw=100",
    "own10=0",
    "own10=1",
    "own10=400",
];

impl Drawer {
    pub fn config_scene(&mut self) {
        match self.random.below(10) {
            0 => {
                let cycles = self.random.pick(&[0, 1, 15, 16, 17, 18, 255]);
                self.call(&format!("cfg filter {cycles}"), &[]);
            }
            1 => {
                let word = self.random.word32();
                self.call(&format!("cfg period {word:X}"), &[]);
            }
            2..=5 => self.construct("cfg timing", &[]),
            choice => {
                let words = [(); 4].map(|()| self.random.word32());
                self.construct(["nb new", "bl new"][choice % 2], &words);
            }
        }
    }

    fn construct(&mut self, call: &str, words: &[u32]) {
        let (clock, speed) = self.clock_and_speed();
        let mut options = Vec::new();
        if !self.random.one_in(10) {
            options.push(format!("speed={speed}"));
        }
        if self.random.one_in(4) {
            options.push(format!("timing={:X}", self.random.word32()));
        }
        if self.random.one_in(3) {
            options.push("analog=0".to_string());
        }
        match self.random.below(6) {
            0 => options.push(format!("filter={}", self.random.below(20))),
            1 => options.push(format!("dnf={}", self.random.below(256))),
            _ => {}
        }
        match self.random.below(6) {
            0 => options.push(format!("own7={:X}", self.random.below(256))),
            1 => options.push(format!("own10={:x}", self.random.below(1 << 16))),
            2 => options.push(format!("own7raw={:X}", self.random.below(1 << 16))),
            3 => options.push(self.random.pick(&OWN_EDGES).to_string()),
            _ => {}
        }
        if self.random.one_in(3) {
            let address = match self.random.below(3) {
                0 => self.random.pick(&[0, 1, 0x7F, 0x80]),
                _ => self.random.below(256),
            };
            let mask = self.random.below(8);
            options.push(format!("own2={address:02X}:{mask}"));
        }
        let mut text = format!("{call} {clock}");
        while !options.is_empty() {
            let next = self.random.below(options.len());
            text += &format!(" {}", options.swap_remove(next));
        }
        self.call(&text, words);
    }

    /// Often a clock that makes q fall just at, below or above an edge.
    fn clock_and_speed(&mut self) -> (u32, u32) {
        let speed = match self.random.below(4) {
            0 => self
                .random
                .pick(&[0, 1, 99_999, 100_000, 100_001, 400_000, u32::MAX]),
            1 => self.random.word32(),
            _ => 1 + self.random.word32() % 1_000_000,
        };
        let prescaled = if speed <= 100_000 { 8 } else { 4 };
        let q = self
            .random
            .pick(&[0, 1, 4, 5, 6, 7, 8, 100, 255, 256, 257, 300]);
        let edge = u64::from(speed) * prescaled * q;
        let clock = match self.random.below(5) {
            0 => self.random.pick(&[0, 1, 16_000_000, 64_000_000, u32::MAX]),
            1 => self.random.word32(),
            2 => edge.saturating_sub(1).min(u32::MAX.into()) as u32,
            _ => edge.min(u32::MAX.into()) as u32,
        };
        (clock, speed)
    }
}
