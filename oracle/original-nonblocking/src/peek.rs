//! The link's private fields, for the player to show, keep and set.

use super::I2c;

/// The seven fields of a link.
#[derive(Clone, PartialEq, Eq, Debug)]
pub struct Fields {
    pub address: u16,
    pub watchdog: u16,
    pub index: usize,
    pub length: usize,
    pub errors: usize,
    pub length_write_read: usize,
    pub data: [u8; 255],
}

impl<I2C, SDA, SCL> I2c<I2C, SDA, SCL> {
    pub fn fields(&self) -> Fields {
        Fields {
            address: self.address,
            watchdog: self.watchdog,
            index: self.index,
            length: self.length,
            errors: self.errors,
            length_write_read: self.length_write_read,
            data: self.data,
        }
    }

    pub fn set_fields(&mut self, fields: &Fields) {
        self.set_numbers(fields);
        self.data = fields.data;
    }

    /// Sets all fields but the buffer.
    #[inline]
    pub fn set_numbers(&mut self, fields: &Fields) {
        self.address = fields.address;
        self.watchdog = fields.watchdog;
        self.index = fields.index;
        self.length = fields.length;
        self.errors = fields.errors;
        self.length_write_read = fields.length_write_read;
    }
}
