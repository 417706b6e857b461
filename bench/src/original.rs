//! The original's side: its calls as functions of their own, over the lean
//! block of `chip`, and its answers as numbers.

use crate::called::{self, Which};
use crate::script::{Call, Fields, Wait, ADDRESS};
use chip::gpio::{OpenDrain, Output, PB6, PB7};
use chip::rcc::Rcc;
use chip::stm32::I2C1;
use chip::tape;
use chip::time::Hertz;
use hal::blocking::i2c::{Read, Write, WriteRead};
use original_blocking::i2c as blocking;
use original_nonblocking::i2c as nonblocking;
use original_nonblocking::i2c::{I2cControl, I2cDirection, I2cMaster, I2cResult, I2cSlave};
use std::hint::black_box;

pub type Link = nonblocking::I2c<I2C1, PB7<Output<OpenDrain>>, PB6<Output<OpenDrain>>>;
pub type Bus = blocking::I2c<I2C1, PB7<Output<OpenDrain>>, PB6<Output<OpenDrain>>>;

pub type Started = nb::Result<(), nonblocking::Error>;
pub type Sent = Result<(), nonblocking::Error>;
pub type Checked<'a> = nb::Result<I2cResult<'a>, nonblocking::Error>;
pub type Waited = Result<(), blocking::Error>;

// What callgrind counts: each call in a function that is never inlined, and all that it calls.

#[no_mangle]
#[inline(never)]
pub fn original_master_write(link: &mut Link, addr: u16, bytes: &[u8]) -> Started {
    link.master_write(addr, bytes)
}

#[no_mangle]
#[inline(never)]
pub fn original_master_write_read(link: &mut Link, addr: u16, bytes: &[u8], n: u8) -> Started {
    link.master_write_read(addr, bytes, n)
}

#[no_mangle]
#[inline(never)]
pub fn original_master_read(link: &mut Link, addr: u16, n: u8) -> Started {
    link.master_read(addr, n)
}

#[no_mangle]
#[inline(never)]
pub fn original_slave_write(link: &mut Link, bytes: &[u8]) -> Sent {
    link.slave_write(bytes)
}

#[no_mangle]
#[inline(never)]
pub fn original_check_isr_flags(link: &mut Link) -> Checked<'_> {
    link.check_isr_flags()
}

#[no_mangle]
#[inline(never)]
pub fn original_execute_watchdog(link: &mut Link) {
    link.execute_watchdog()
}

#[no_mangle]
#[inline(never)]
pub fn original_get_errors_reset(link: &mut Link) -> usize {
    link.get_errors_reset()
}

#[no_mangle]
#[inline(never)]
pub fn original_blocking_write(bus: &mut Bus, address: u8, bytes: &[u8]) -> Waited {
    bus.write(address, bytes)
}

#[no_mangle]
#[inline(never)]
pub fn original_blocking_read(bus: &mut Bus, address: u8, buffer: &mut [u8]) -> Waited {
    bus.read(address, buffer)
}

#[no_mangle]
#[inline(never)]
pub fn original_blocking_write_read(
    bus: &mut Bus,
    address: u8,
    bytes: &[u8],
    buffer: &mut [u8],
) -> Waited {
    bus.write_read(address, bytes, buffer)
}

/// What becomes of an answer: `()` drops it, `Numbers` keeps it.
pub trait Taker {
    fn started(&mut self, answer: Started);
    fn checked(&mut self, answer: Checked);
    fn sent(&mut self, answer: Sent);
    fn counted(&mut self, errors: usize);
    fn waited(&mut self, answer: Waited);
}

impl Taker for () {
    fn started(&mut self, answer: Started) {
        black_box(&answer);
    }

    fn checked(&mut self, answer: Checked) {
        black_box(&answer);
    }

    fn sent(&mut self, answer: Sent) {
        black_box(&answer);
    }

    fn counted(&mut self, errors: usize) {
        black_box(errors);
    }

    fn waited(&mut self, answer: Waited) {
        black_box(&answer);
    }
}

/// An answer's number and its values, as our side gives them.
pub type Numbers = [u64; 4];

impl Taker for Numbers {
    fn started(&mut self, answer: Started) {
        *self = match answer {
            Ok(()) => [0; 4],
            Err(nb::Error::WouldBlock) => [1, 0, 0, 0],
            Err(nb::Error::Other(error)) => failed(error),
        }
    }

    fn checked(&mut self, answer: Checked) {
        *self = match answer {
            Ok(I2cResult::Data(address, direction, bytes)) => {
                [0x44, address.into(), way(direction), bytes.len() as u64]
            }
            Ok(I2cResult::Addressed(address, direction)) => {
                [0x41, address.into(), way(direction), 0]
            }
            Err(nb::Error::WouldBlock) => [1, 0, 0, 0],
            Err(nb::Error::Other(error)) => failed(error),
        }
    }

    fn sent(&mut self, answer: Sent) {
        *self = answer.map_or_else(failed, |()| [0; 4]);
    }

    fn counted(&mut self, errors: usize) {
        *self = [0x45, errors as u64, 0, 0];
    }

    fn waited(&mut self, answer: Waited) {
        *self = answer.map_or_else(
            |error| match error {
                blocking::Error::IncorrectFrameSize(n) => [5, n as u64, 0, 0],
                _ => panic!("not an answer of a row"),
            },
            |()| [0; 4],
        );
    }
}

fn way(direction: I2cDirection) -> u64 {
    direction as u64
}

fn failed(error: nonblocking::Error) -> Numbers {
    use nonblocking::Error::*;
    match error {
        Nack => [2, 0, 0, 0],
        BusError => [3, 0, 0, 0],
        ArbitrationLost => [4, 0, 0, 0],
        IncorrectFrameSize(n) => [5, n as u64, 0, 0],
        Overrun | PECError => panic!("no call answers this"),
    }
}

/// Links, a bus and the buffers that the calls are lent.
pub struct Original {
    pub called: called::Original,
    pub links: Vec<Link>,
    pub bus: Bus,
    pub bytes: [u8; 255],
    pub buffer: [u8; 255],
}

impl Original {
    pub fn new(bytes: [u8; 255], links: usize) -> Self {
        Original {
            called: called::Original::new(Which::Driver),
            links: (0..links).map(|_| link()).collect(),
            bus: bus(),
            bytes,
            buffer: [0; 255],
        }
    }

    /// Lays in the words and the log of the calls that follow.
    #[inline]
    pub fn load(&mut self, words: &[u32], log: &mut [u32]) {
        unsafe { tape::load(words.as_ptr(), log.as_mut_ptr()) }
    }

    pub fn set(&mut self, fields: &Fields) {
        for link in &mut self.links {
            link.set_numbers(fields);
        }
    }

    #[inline]
    pub fn call(&mut self, link: usize, call: Call, taker: &mut impl Taker) {
        let (link, address) = (&mut self.links[link], ADDRESS.into());
        let called = &self.called;
        match call {
            Call::MasterWrite(n) => {
                taker.started((called.master_write)(link, address, &self.bytes[..n]))
            }
            Call::MasterWriteRead(n, m) => taker.started((called.master_write_read)(
                link,
                address,
                &self.bytes[..n],
                m,
            )),
            Call::MasterRead(n) => taker.started((called.master_read)(link, address, n)),
            Call::SlaveWrite(n) => taker.sent((called.slave_write)(link, &self.bytes[..n])),
            Call::Check => taker.checked((called.check_isr_flags)(link)),
            Call::Watchdog => (called.execute_watchdog)(link),
            Call::Errors => taker.counted((called.get_errors_reset)(link)),
        }
    }

    #[inline]
    pub fn wait(&mut self, wait: Wait, taker: &mut impl Taker) {
        let (bus, bytes, buffer) = (&mut self.bus, &self.bytes, &mut self.buffer);
        let called = &self.called;
        taker.waited(match wait {
            Wait::Write(n) => (called.blocking_write)(bus, ADDRESS, &bytes[..n]),
            Wait::Read(n) => (called.blocking_read)(bus, ADDRESS, &mut buffer[..n]),
            Wait::WriteRead(n, m) => {
                (called.blocking_write_read)(bus, ADDRESS, &bytes[..n], &mut buffer[..m])
            }
        });
    }
}

/// A link as constructed; its accesses go to a log of their own.
fn link() -> Link {
    let (words, mut log) = ([0; 8], [0; 32]);
    unsafe { tape::load(words.as_ptr(), log.as_mut_ptr()) };
    let config = nonblocking::Config::new(Hertz(100_000));
    Link::i2c1(I2C1, PB7::default(), PB6::default(), config, &mut clock())
}

fn bus() -> Bus {
    let (words, mut log) = ([0; 8], [0; 32]);
    unsafe { tape::load(words.as_ptr(), log.as_mut_ptr()) };
    let config = blocking::Config::new(Hertz(100_000));
    Bus::i2c1(I2C1, PB7::default(), PB6::default(), config, &mut clock())
}

fn clock() -> Rcc {
    Rcc::with_apb_clk(64_000_000)
}
