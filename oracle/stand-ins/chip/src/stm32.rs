//! Stand-in for `stm32`: the I2C register block with the offsets, field places
//! and widths of document 01, and the two peripherals.

use crate::rcc::Rcc;
use crate::register::registers;

registers! {
    cr1 @ 0x00 = 0 {
        pe 0 1 bool, txie 1 1 bool, rxie 2 1 bool, addrie 3 1 bool, nackie 4 1 bool,
        stopie 5 1 bool, tcie 6 1 bool, errie 7 1 bool, dnf 8 4 u8, anfoff 12 1 bool,
        sbc 16 1 bool,
    }
    cr2 @ 0x04 = 0 {
        sadd 0 10 u16, rd_wrn 10 1 bool, add10 11 1 bool, start 13 1 bool, stop 14 1 bool,
        nack 15 1 bool, nbytes 16 8 u8, reload 24 1 bool, autoend 25 1 bool,
    }
    oar1 @ 0x08 = 0 {
        oa1_0 0 1 bool, oa1_7_1 1 7 u8, oa1_8_9 8 2 u8, oa1mode 10 1 bool, oa1en 15 1 bool,
    }
    oar2 @ 0x0C = 0 { oa2 1 7 u8, oa2msk 8 3 u8, oa2en 15 1 bool }
    timingr @ 0x10 = 0 {}
    isr @ 0x18 = 1 {
        txe 0 1 bool, txis 1 1 bool, rxne 2 1 bool, addr 3 1 bool, nackf 4 1 bool,
        stopf 5 1 bool, tc 6 1 bool, tcr 7 1 bool, berr 8 1 bool, arlo 9 1 bool,
        dir 16 1 bool, addcode 17 7 u8,
    }
    icr @ 0x1C = 0 {
        addrcf 3 1 bool, nackcf 4 1 bool, stopcf 5 1 bool, berrcf 8 1 bool, arlocf 9 1 bool,
    }
    rxdr @ 0x24 = 0 { rxdata 0 8 u8 }
    txdr @ 0x28 = 0 { txdata 0 8 u8 }
}

macro_rules! peripherals {
    ($($name:ident)+) => {
        $(
            pub struct $name;

            impl $name {
                pub fn enable(_rcc: &mut Rcc) {}

                pub fn reset(_rcc: &mut Rcc) {}
            }

            impl core::ops::Deref for $name {
                type Target = RegisterBlock;

                #[inline]
                fn deref(&self) -> &RegisterBlock {
                    &BLOCK
                }
            }
        )+
    };
}

peripherals!(I2C1 I2C2);
