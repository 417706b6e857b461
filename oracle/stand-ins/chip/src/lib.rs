//! Stand-ins for the modules that the original I2C files lean on: registers,
//! pins, clocks and the time type. The registers read a script of words.

pub mod gpio;
pub mod rcc;
mod register;
pub mod stm32;
#[cfg_attr(feature = "lean", path = "lean_tape.rs")]
pub mod tape;
pub mod time;
