//! Configurations and errors of the two originals. Each is compiled on its own
//! and has its own types of the same names, so both come from one macro.

macro_rules! of_original {
    ($name:ident, $original:ident) => {
        pub mod $name {
            use crate::answer::Answer;
            use crate::call::{Filter, Own, Settings};
            use chip::time::Hertz;
            use $original::i2c::{Config, Error, SlaveAddressMask};

            /// Builds a configuration with the original's own functions, and
            /// past them where the script says so.
            pub fn config(settings: &Settings) -> Config {
                let mut config = match (settings.timing, settings.speed) {
                    (Some(word), _) => Config::with_timing(word),
                    (None, Some(speed)) => Config::new(Hertz(speed)),
                    (None, None) => Config::new(Hertz(0)),
                };
                config.speed = settings.speed.map(Hertz);
                if settings.analog_off {
                    config = config.disable_analog_filter();
                }
                match settings.filter {
                    Some(Filter::Setter(cycles)) => config = config.enable_digital_filter(cycles),
                    Some(Filter::Field(cycles)) => config.digital_filter = cycles,
                    None => {}
                }
                match settings.own {
                    Some(Own::Seven(address)) => config.slave_address(address),
                    Some(Own::SevenRaw(address)) => config.slave_address_1 = address,
                    Some(Own::Ten(address)) => config.slave_address_11bits(address),
                    None => {}
                }
                if let Some((address, mask)) = settings.own2 {
                    config.slave_address_2(address, MASKS[mask as usize]);
                }
                config
            }

            const MASKS: [SlaveAddressMask; 8] = [
                SlaveAddressMask::MaskNone,
                SlaveAddressMask::MaskOneBit,
                SlaveAddressMask::MaskTwoBits,
                SlaveAddressMask::MaskThreeBits,
                SlaveAddressMask::MaskFourBits,
                SlaveAddressMask::MaskFiveBits,
                SlaveAddressMask::MaskSixBits,
                SlaveAddressMask::MaskAllBits,
            ];

            pub fn error(error: Error) -> Answer {
                match error {
                    Error::Nack => Answer::Number(2),
                    Error::BusError => Answer::Number(3),
                    Error::ArbitrationLost => Answer::Number(4),
                    Error::IncorrectFrameSize(count) => Answer::Short(count),
                    Error::Overrun | Error::PECError => unreachable!("no driver answers these"),
                }
            }
        }
    };
}

of_original!(blocking, original_blocking);
of_original!(nonblocking, original_nonblocking);
