//! The non-blocking driver: the original with its link kept from call to call.

use crate::answer::{Answer, DONE};
use crate::call::*;
use crate::config::nonblocking as original;
use crate::player::Ruling;
use crate::refusals;
use crate::run::{run_unwaited, Outcome};
use chip::gpio::{OpenDrain, Output, PB6, PB7};
use chip::rcc::Rcc;
use chip::stm32::I2C1;
use chip::tape;
use original_nonblocking::i2c::peek::Fields;
use original_nonblocking::i2c::{
    Config, Error, I2c, I2cControl, I2cExt, I2cMaster, I2cResult, I2cSlave,
};

type Driver = I2c<I2C1, PB7<Output<OpenDrain>>, PB6<Output<OpenDrain>>>;

pub struct Link {
    ruling: Ruling,
    driver: Driver,
}

impl Link {
    pub fn new(ruling: Ruling) -> Self {
        Link {
            ruling,
            driver: fresh(),
        }
    }

    pub fn fields(&self) -> Fields {
        self.driver.fields()
    }

    pub fn set_fields(&mut self, fields: &Fields) {
        self.driver.set_fields(fields);
    }

    pub fn reset(&mut self) -> Outcome {
        self.driver = fresh();
        put()
    }

    pub fn set(&mut self, values: &LinkValues) -> Outcome {
        let mut fields = self.driver.fields();
        fields.address = values.address.unwrap_or(fields.address);
        fields.watchdog = values.watchdog.unwrap_or(fields.watchdog);
        fields.index = values.index.unwrap_or(fields.index);
        fields.length = values.length.unwrap_or(fields.length);
        fields.errors = values.errors.map_or(fields.errors, |n| n as usize);
        fields.length_write_read = values.second.unwrap_or(fields.length_write_read);
        if let Some(data) = &values.data {
            fields.data[..data.len()].copy_from_slice(data);
        }
        self.driver.set_fields(&fields);
        put()
    }

    pub fn construct(&mut self, with: &Construction, words: &[u32], places: usize) -> Outcome {
        if self.ruling == Ruling::Document {
            if let Some(number) = refusals::of_construction(with) {
                return Outcome::refused(number);
            }
        }
        let mut built = None;
        let outcome = run_unwaited(words, places, None, || {
            built = Some(constructed(original::config(&with.settings), with.clock));
            DONE
        });
        if outcome.kept {
            self.driver = built.expect("a kept constructor has built");
        }
        outcome
    }

    pub fn call(&mut self, call: &LinkCall, words: &[u32], places: usize) -> Outcome {
        let before = self.driver.fields();
        let mut for_panic = None;
        if self.ruling == Ruling::Document {
            if let Some(number) = refusals::of_link_call(call, &before) {
                return Outcome::refused(number);
            }
            for_panic = refusals::of_panic(call);
        }
        let outcome = run_unwaited(words, places, for_panic, || perform(&mut self.driver, call));
        if !outcome.kept {
            self.driver.set_fields(&before);
        } else if self.ruling == Ruling::Document {
            let mut fields = self.driver.fields();
            if fields.errors > refusals::MOST_ERRORS {
                fields.errors = refusals::MOST_ERRORS;
                self.driver.set_fields(&fields);
            }
        }
        outcome
    }
}

/// `nb reset` and `nb set` are no calls of the driver: no accesses.
fn put() -> Outcome {
    Outcome {
        answer: DONE,
        logged: false,
        kept: true,
    }
}

fn constructed(config: Config, clock: u32) -> Driver {
    I2C1.i2c(
        PB7::default(),
        PB6::default(),
        config,
        &mut Rcc::with_apb_clk(clock),
    )
}

/// A link as constructed, whatever the configuration.
fn fresh() -> Driver {
    tape::load(&[0; 2], 0, tape::ENDLESS);
    constructed(Config::with_timing(0), 0)
}

fn perform(driver: &mut Driver, call: &LinkCall) -> Answer {
    match call {
        LinkCall::MasterWrite { address, bytes } => {
            return started(driver.master_write(*address, bytes))
        }
        LinkCall::MasterWriteRead {
            address,
            bytes,
            read_length,
        } => return started(driver.master_write_read(*address, bytes, *read_length)),
        LinkCall::MasterRead { address, length } => {
            return started(driver.master_read(*address, *length))
        }
        LinkCall::SlaveWrite { bytes } => {
            return started(driver.slave_write(bytes).map_err(nb::Error::Other))
        }
        LinkCall::Check => return checked(driver.check_isr_flags()),
        LinkCall::Errors => return Answer::Errors(driver.get_errors_reset()),
        LinkCall::MasterData => return Answer::Shown(I2cMaster::get_data(driver).to_vec()),
        LinkCall::SlaveData => return Answer::Shown(I2cSlave::get_data(driver).to_vec()),
        LinkCall::MasterAddress => return Answer::Address(I2cMaster::get_address(driver)),
        LinkCall::SlaveAddress => return Answer::Address(I2cSlave::get_address(driver)),
        LinkCall::Watchdog => driver.execute_watchdog(),
        LinkCall::Listen => driver.listen(),
        LinkCall::Unlisten => driver.unlisten(),
        LinkCall::Sbc(on) => driver.slave_sbc(*on),
        LinkCall::SetAddress(address) => driver.set_address(*address),
    }
    DONE
}

fn checked(result: nb::Result<I2cResult, Error>) -> Answer {
    match result {
        Ok(I2cResult::Data(address, direction, data)) => {
            Answer::Data(address, direction as u8, data.to_vec())
        }
        Ok(I2cResult::Addressed(address, direction)) => Answer::Addressed(address, direction as u8),
        Err(error) => not_done(error),
    }
}

fn started(result: nb::Result<(), Error>) -> Answer {
    result.map_or_else(not_done, |()| DONE)
}

fn not_done(error: nb::Error<Error>) -> Answer {
    match error {
        nb::Error::WouldBlock => Answer::Number(1),
        nb::Error::Other(error) => original::error(error),
    }
}
