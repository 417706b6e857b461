//! Stand-in for `rcc`: the clock is a number, clock gates do nothing.

use crate::time::Hertz;

pub struct Clocks {
    pub apb_clk: Hertz,
}

pub struct Rcc {
    pub clocks: Clocks,
}

impl Rcc {
    pub fn with_apb_clk(hertz: u32) -> Self {
        Rcc {
            clocks: Clocks {
                apb_clk: Hertz(hertz),
            },
        }
    }
}
