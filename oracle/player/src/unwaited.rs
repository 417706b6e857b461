//! The calls of the blocking driver that never wait, and the configuration.

use crate::answer::{Answer, DONE};
use crate::call::*;
use crate::config::blocking as original;
use crate::player::Ruling;
use crate::refusals;
use crate::run::{run_unwaited, Outcome};
use crate::waiting::{constructed, Driver};
use chip::time::Hertz;
use original_blocking::i2c::blocking::I2cSlave;
use original_blocking::i2c::Event as OriginalEvent;

pub fn call(
    driver: &mut Driver,
    ruling: Ruling,
    call: &UnwaitedCall,
    words: &[u32],
    places: usize,
) -> Outcome {
    if ruling == Ruling::Document {
        if let Some(number) = refusals::of_unwaited(call) {
            return Outcome::refused(number);
        }
    }
    run_unwaited(words, places, None, || perform(driver, call))
}

fn perform(driver: &mut Driver, call: &UnwaitedCall) -> Answer {
    match call {
        UnwaitedCall::New(with) => {
            *driver = constructed(original::config(&with.settings), with.clock);
        }
        UnwaitedCall::SlaveAddressed => {
            return match driver.slave_addressed() {
                Ok(Some((address, direction))) => Answer::Addressed(address, direction as u8),
                Ok(None) => Answer::Number(1),
                Err(error) => original::error(error),
            }
        }
        UnwaitedCall::Sbc(on) => driver.slave_sbc(*on),
        UnwaitedCall::Listen(event) => driver.listen(original_event(*event)),
        UnwaitedCall::Unlisten(event) => driver.unlisten(original_event(*event)),
        UnwaitedCall::ClearIrq(event) => driver.clear_irq(original_event(*event)),
        UnwaitedCall::Timing(with) => {
            let config = original::config(&with.settings);
            return Answer::Word(config.timing_bits(Hertz(with.clock)));
        }
        UnwaitedCall::Filter(cycles) => {
            let settings = Settings {
                filter: Some(Filter::Setter(*cycles)),
                ..Settings::default()
            };
            return Answer::Word(original::config(&settings).digital_filter.into());
        }
        UnwaitedCall::Period(word) => return Answer::Period(period(*word)),
    }
    DONE
}

fn original_event(event: Event) -> OriginalEvent {
    match event {
        Event::AddressMatch => OriginalEvent::AddressMatch,
        Event::Rxne => OriginalEvent::Rxne,
    }
}

/// Added by document 01, not in the Rust: (PRESC+1)×(SCLL+SCLH+2).
fn period(word: u32) -> u32 {
    let (prescaler, high, low) = (word >> 28, word >> 8 & 0xFF, word & 0xFF);
    (prescaler + 1) * (low + high + 2)
}
