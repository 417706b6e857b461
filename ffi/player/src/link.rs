//! The calls of the non-blocking driver.

use crate::functions::*;
use crate::lent::{lend, Lent};
use oracle::answer::Fields;
use oracle::call::{LinkCall, LinkValues};

impl Link {
    /// The link as constructed.
    pub fn fresh() -> Self {
        Link {
            address: 0,
            watchdog: 0,
            index: 0,
            length: 0,
            errors: 0,
            marks: 0,
            length_write_read: 0,
            data: [0; 255],
        }
    }

    pub fn fields(&self) -> Fields {
        Fields {
            address: self.address,
            watchdog: self.watchdog,
            index: self.index,
            length: self.length,
            errors: self.errors as usize,
            length_write_read: self.length_write_read,
            data: self.data,
        }
    }

    /// `nb set`
    pub fn set(&mut self, values: &LinkValues) {
        self.address = values.address.unwrap_or(self.address);
        self.watchdog = values.watchdog.unwrap_or(self.watchdog);
        self.index = values.index.unwrap_or(self.index);
        self.length = values.length.unwrap_or(self.length);
        self.errors = values.errors.unwrap_or(self.errors);
        self.length_write_read = values.second.unwrap_or(self.length_write_read);
        if let Some(data) = &values.data {
            self.data[..data.len()].copy_from_slice(data);
        }
    }
}

/// `nb new`
pub fn construct(link: &mut Link, config: &Numbers, clock: u32, lent: &mut Lent) {
    // SAFETY: the link and everything lent live until the function returns.
    unsafe { lend!(lent, i2c_construct(link, config.as_ptr(), clock)) }
}

pub fn call(link: &mut Link, call: &LinkCall, lent: &mut Lent) {
    // SAFETY: the link, the bytes and everything lent live until the function returns.
    unsafe {
        match call {
            LinkCall::MasterWrite { address, bytes } => lend!(
                lent,
                i2c_master_write(link, *address, bytes.as_ptr(), bytes.len())
            ),
            LinkCall::MasterWriteRead {
                address,
                bytes,
                read_length,
            } => lend!(
                lent,
                i2c_master_write_read(link, *address, bytes.as_ptr(), bytes.len(), *read_length)
            ),
            LinkCall::MasterRead { address, length } => {
                lend!(lent, i2c_master_read(link, *address, *length))
            }
            LinkCall::SlaveWrite { bytes } => {
                lend!(lent, i2c_slave_write(link, bytes.as_ptr(), bytes.len()))
            }
            LinkCall::Check => lend!(lent, i2c_check_isr_flags(link)),
            LinkCall::Watchdog => lend!(lent, i2c_execute_watchdog(link)),
            LinkCall::Errors => i2c_get_errors_reset(link, lent.out.as_mut_ptr()),
            LinkCall::MasterData => i2c_master_get_data(link, lent.out.as_mut_ptr()),
            LinkCall::SlaveData => i2c_slave_get_data(link, lent.out.as_mut_ptr()),
            LinkCall::MasterAddress | LinkCall::SlaveAddress => {
                i2c_get_address(link, lent.out.as_mut_ptr())
            }
            LinkCall::Listen => lend!(lent, i2c_listen(link)),
            LinkCall::Unlisten => lend!(lent, i2c_unlisten(link)),
            LinkCall::Sbc(on) => lend!(lent, i2c_slave_sbc(link, *on)),
            LinkCall::SetAddress(address) => lend!(lent, i2c_set_address(link, *address)),
        }
    }
}
