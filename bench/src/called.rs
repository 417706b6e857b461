//! The functions that a side calls, by pointers: the driver's, or empty ones of
//! the same signatures, which show what the calling alone takes.

use crate::original::*;
use crate::ours::{Link as OurLink, Out, Parked};
use std::hint::black_box;

/// Which functions are called.
#[derive(Clone, Copy)]
pub enum Which {
    Driver,
    Empty,
}

/// The original's functions.
pub struct Original {
    pub master_write: fn(&mut Link, u16, &[u8]) -> Started,
    pub master_write_read: fn(&mut Link, u16, &[u8], u8) -> Started,
    pub master_read: fn(&mut Link, u16, u8) -> Started,
    pub slave_write: fn(&mut Link, &[u8]) -> Sent,
    pub check_isr_flags: fn(&mut Link) -> Checked<'_>,
    pub execute_watchdog: fn(&mut Link),
    pub get_errors_reset: fn(&mut Link) -> usize,
    pub blocking_write: fn(&mut Bus, u8, &[u8]) -> Waited,
    pub blocking_read: fn(&mut Bus, u8, &mut [u8]) -> Waited,
    pub blocking_write_read: fn(&mut Bus, u8, &[u8], &mut [u8]) -> Waited,
}

impl Original {
    pub fn new(which: Which) -> Self {
        black_box(match which {
            Which::Driver => Original {
                master_write: original_master_write,
                master_write_read: original_master_write_read,
                master_read: original_master_read,
                slave_write: original_slave_write,
                check_isr_flags: original_check_isr_flags,
                execute_watchdog: original_execute_watchdog,
                get_errors_reset: original_get_errors_reset,
                blocking_write: original_blocking_write,
                blocking_read: original_blocking_read,
                blocking_write_read: original_blocking_write_read,
            },
            Which::Empty => Original {
                master_write: |_, _, _| Ok(()),
                master_write_read: |_, _, _, _| Ok(()),
                master_read: |_, _, _| Ok(()),
                slave_write: |_, _| Ok(()),
                check_isr_flags: |_| Err(nb::Error::WouldBlock),
                execute_watchdog: |_| (),
                get_errors_reset: |_| 0,
                blocking_write: |_, _, _| Ok(()),
                blocking_read: |_, _, _| Ok(()),
                blocking_write_read: |_, _, _, _| Ok(()),
            },
        })
    }
}

/// An empty call takes all words, so that a call parked at every word is resumed as often.
fn all_taken(words_len: usize, out: *mut Out) {
    unsafe {
        (*out).0[0] = crate::ours::OUT_OF_WORDS;
        (*out).0[1] = words_len as u64;
        (*out).0[2] = 0;
    }
}

/// Functions of `ffi/i2c.h` whose last arguments are the words, the log and the answer.
macro_rules! ours {
    ($($call:ident = $name:ident($($argument:ident: $type:ty),*);)*) => {
        extern "C" {
            $(fn $name(
                $($argument: $type,)*
                words: *const u32,
                words_len: usize,
                log: *mut u32,
                log_len: usize,
                out: *mut Out,
            );)*
            fn i2c_get_errors_reset(link: *mut OurLink, out: *mut Out);
        }

        /// Our functions.
        pub struct Ours {
            $(pub $call:
                unsafe extern "C" fn($($type,)* *const u32, usize, *mut u32, usize, *mut Out),)*
            pub get_errors_reset: unsafe extern "C" fn(*mut OurLink, *mut Out),
        }

        impl Ours {
            pub fn new(which: Which) -> Self {
                $(unsafe extern "C" fn $call(
                    $(_: $type,)*
                    _: *const u32,
                    words_len: usize,
                    _: *mut u32,
                    _: usize,
                    out: *mut Out,
                ) {
                    all_taken(words_len, out)
                })*
                unsafe extern "C" fn get_errors_reset(_: *mut OurLink, out: *mut Out) {
                    all_taken(0, out)
                }
                black_box(match which {
                    Which::Driver => Ours {
                        $($call: $name,)*
                        get_errors_reset: i2c_get_errors_reset,
                    },
                    Which::Empty => Ours {
                        $($call,)*
                        get_errors_reset,
                    },
                })
            }
        }
    };
}

ours! {
    master_write = i2c_master_write(link: *mut OurLink, addr: u16, bytes: *const u8, bytes_len: usize);
    master_write_read = i2c_master_write_read(
        link: *mut OurLink, addr: u16, bytes: *const u8, bytes_len: usize, read_len: u8
    );
    master_read = i2c_master_read(link: *mut OurLink, addr: u16, read_len: u8);
    slave_write = i2c_slave_write(link: *mut OurLink, bytes: *const u8, bytes_len: usize);
    check_isr_flags = i2c_check_isr_flags(link: *mut OurLink);
    execute_watchdog = i2c_execute_watchdog(link: *mut OurLink);
    blocking_write = i2c_blocking_write(
        parked: *mut Parked, address: u8, bytes: *const u8, bytes_len: usize
    );
    blocking_read = i2c_blocking_read(
        parked: *mut Parked, address: u8, buffer: *mut u8, buffer_len: usize
    );
    blocking_write_read = i2c_blocking_write_read(
        parked: *mut Parked, address: u8, bytes: *const u8, bytes_len: usize,
        buffer: *mut u8, buffer_len: usize
    );
    blocking_resume = i2c_blocking_resume(
        parked: *mut Parked, taken: usize, bytes: *const u8, bytes_len: usize,
        buffer: *mut u8, buffer_len: usize
    );
}
