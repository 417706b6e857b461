//! The original I2C files, unchanged, with the feature `i2c-nonblocking`.

// The original's own warnings; its text stays as it is.
#![allow(unused, unexpected_cfgs, mismatched_lifetime_syntaxes, clippy::all)]

pub use chip::{gpio, rcc, stm32, time};

include!(concat!(env!("OUT_DIR"), "/original.rs"));
