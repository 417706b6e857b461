//! Stand-in for the crate `embedded_hal`, which the original names `hal`.

pub mod blocking {
    pub mod i2c {
        pub trait Read {
            type Error;
            fn read(&mut self, address: u8, buffer: &mut [u8]) -> Result<(), Self::Error>;
        }

        pub trait Write {
            type Error;
            fn write(&mut self, address: u8, bytes: &[u8]) -> Result<(), Self::Error>;
        }

        pub trait WriteRead {
            type Error;
            fn write_read(
                &mut self,
                address: u8,
                bytes: &[u8],
                buffer: &mut [u8],
            ) -> Result<(), Self::Error>;
        }
    }
}
