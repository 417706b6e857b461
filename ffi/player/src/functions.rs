//! The functions of the library, as `i2c.h` declares them: a slice is where it
//! begins and how many places it has.

use std::mem::offset_of;

/// A link in this program's memory.
#[repr(C)]
#[derive(Clone)]
pub struct Link {
    pub address: u16,
    pub watchdog: u16,
    pub index: usize,
    pub length: usize,
    pub errors: u32,
    pub marks: u32,
    pub length_write_read: usize,
    pub data: [u8; 255],
}

const _: () = assert!(offset_of!(Link, data) == 40 && size_of::<Link>() == 296);

/// A call that waits, kept between its runs.
pub type Parked = [u64; 7];

/// A configuration.
pub type Numbers = [u32; 10];

extern "C" {
    pub fn i2c_construct(
        link: *mut Link,
        config: *const u32,
        clock: u32,
        words: *const u32,
        words_len: usize,
        log: *mut u32,
        log_len: usize,
        out: *mut u64,
    );
    pub fn i2c_master_write(
        link: *mut Link,
        addr: u16,
        bytes: *const u8,
        bytes_len: usize,
        words: *const u32,
        words_len: usize,
        log: *mut u32,
        log_len: usize,
        out: *mut u64,
    );
    pub fn i2c_master_write_read(
        link: *mut Link,
        addr: u16,
        bytes: *const u8,
        bytes_len: usize,
        read_len: u8,
        words: *const u32,
        words_len: usize,
        log: *mut u32,
        log_len: usize,
        out: *mut u64,
    );
    pub fn i2c_master_read(
        link: *mut Link,
        addr: u16,
        read_len: u8,
        words: *const u32,
        words_len: usize,
        log: *mut u32,
        log_len: usize,
        out: *mut u64,
    );
    pub fn i2c_slave_write(
        link: *mut Link,
        bytes: *const u8,
        bytes_len: usize,
        words: *const u32,
        words_len: usize,
        log: *mut u32,
        log_len: usize,
        out: *mut u64,
    );
    pub fn i2c_check_isr_flags(
        link: *mut Link,
        words: *const u32,
        words_len: usize,
        log: *mut u32,
        log_len: usize,
        out: *mut u64,
    );
    pub fn i2c_execute_watchdog(
        link: *mut Link,
        words: *const u32,
        words_len: usize,
        log: *mut u32,
        log_len: usize,
        out: *mut u64,
    );
    pub fn i2c_get_errors_reset(link: *mut Link, out: *mut u64);
    pub fn i2c_master_get_data(link: *const Link, out: *mut u64);
    pub fn i2c_slave_get_data(link: *const Link, out: *mut u64);
    pub fn i2c_get_address(link: *const Link, out: *mut u64);
    pub fn i2c_listen(
        link: *const Link,
        words: *const u32,
        words_len: usize,
        log: *mut u32,
        log_len: usize,
        out: *mut u64,
    );
    pub fn i2c_unlisten(
        link: *const Link,
        words: *const u32,
        words_len: usize,
        log: *mut u32,
        log_len: usize,
        out: *mut u64,
    );
    pub fn i2c_slave_sbc(
        link: *const Link,
        on: bool,
        words: *const u32,
        words_len: usize,
        log: *mut u32,
        log_len: usize,
        out: *mut u64,
    );
    pub fn i2c_set_address(
        link: *const Link,
        address: u16,
        words: *const u32,
        words_len: usize,
        log: *mut u32,
        log_len: usize,
        out: *mut u64,
    );

    pub fn i2c_blocking_construct(
        config: *const u32,
        clock: u32,
        words: *const u32,
        words_len: usize,
        log: *mut u32,
        log_len: usize,
        out: *mut u64,
    );
    pub fn i2c_blocking_write(
        parked: *mut u64,
        address: u8,
        bytes: *const u8,
        bytes_len: usize,
        words: *const u32,
        words_len: usize,
        log: *mut u32,
        log_len: usize,
        out: *mut u64,
    );
    pub fn i2c_blocking_read(
        parked: *mut u64,
        address: u8,
        buffer: *mut u8,
        buffer_len: usize,
        words: *const u32,
        words_len: usize,
        log: *mut u32,
        log_len: usize,
        out: *mut u64,
    );
    pub fn i2c_blocking_write_read(
        parked: *mut u64,
        address: u8,
        bytes: *const u8,
        bytes_len: usize,
        buffer: *mut u8,
        buffer_len: usize,
        words: *const u32,
        words_len: usize,
        log: *mut u32,
        log_len: usize,
        out: *mut u64,
    );
    pub fn i2c_blocking_slave_write(
        parked: *mut u64,
        bytes: *const u8,
        bytes_len: usize,
        words: *const u32,
        words_len: usize,
        log: *mut u32,
        log_len: usize,
        out: *mut u64,
    );
    pub fn i2c_blocking_slave_read(
        parked: *mut u64,
        buffer: *mut u8,
        buffer_len: usize,
        words: *const u32,
        words_len: usize,
        log: *mut u32,
        log_len: usize,
        out: *mut u64,
    );
    pub fn i2c_blocking_slave_wait_addressed(
        parked: *mut u64,
        words: *const u32,
        words_len: usize,
        log: *mut u32,
        log_len: usize,
        out: *mut u64,
    );
    pub fn i2c_blocking_resume(
        parked: *mut u64,
        taken: u64,
        send: *const u8,
        send_len: usize,
        receive: *mut u8,
        receive_len: usize,
        words: *const u32,
        words_len: usize,
        log: *mut u32,
        log_len: usize,
        out: *mut u64,
    );
    pub fn i2c_blocking_next(
        parked: *const u64,
        bytes: *const u8,
        bytes_len: usize,
        next: *mut u64,
    );
    pub fn i2c_blocking_slave_addressed(
        words: *const u32,
        words_len: usize,
        log: *mut u32,
        log_len: usize,
        out: *mut u64,
    );
    pub fn i2c_blocking_slave_sbc(
        on: bool,
        words: *const u32,
        words_len: usize,
        log: *mut u32,
        log_len: usize,
        out: *mut u64,
    );
    pub fn i2c_blocking_listen(
        event: u8,
        words: *const u32,
        words_len: usize,
        log: *mut u32,
        log_len: usize,
        out: *mut u64,
    );
    pub fn i2c_blocking_unlisten(
        event: u8,
        words: *const u32,
        words_len: usize,
        log: *mut u32,
        log_len: usize,
        out: *mut u64,
    );
    pub fn i2c_blocking_clear_irq(event: u8, log: *mut u32, log_len: usize, out: *mut u64);
}
