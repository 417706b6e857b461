//! The blocking calls that wait. The Rust cannot park, so a resumed call runs
//! anew from its begin over all words taken so far and the new ones, as one
//! uncut run; the accesses already shown are passed over.

use crate::answer::{Answer, DONE};
use crate::call::{Begin, Kind};
use crate::config::blocking as original;
use crate::player::Ruling;
use crate::refusals;
use crate::run::{run, End};
use chip::gpio::{OpenDrain, Output, PB6, PB7};
use chip::rcc::Rcc;
use chip::stm32::I2C1;
use chip::tape::{self, Stop};
use hal::blocking::i2c::{Read, Write, WriteRead};
use original_blocking::i2c::blocking::I2cSlave;
use original_blocking::i2c::{Config, I2c, I2cExt};

pub type Driver = I2c<I2C1, PB7<Output<OpenDrain>>, PB6<Output<OpenDrain>>>;

/// The call begun last, parked or over.
pub struct Parked {
    kind: Kind,
    address: u8,
    pub send_length: usize,
    pub recv_length: usize,
    pub over: bool,
    /// The words taken in all runs.
    words: Vec<u32>,
    /// The accesses shown in all runs.
    shown: usize,
    /// The places of the receive buffer filled in all runs.
    filled: usize,
}

/// What a run shows: its answer, and how many accesses of the log are old.
pub struct Ran {
    pub answer: Answer,
    pub shown_before: usize,
    pub logged: bool,
}

pub struct Waiting {
    pub driver: Driver,
    parked: Option<Parked>,
    send: Vec<u8>,
    pub recv: Vec<u8>,
    /// The words that the last run took.
    pub taken: usize,
}

impl Waiting {
    pub fn new() -> Self {
        tape::load(&[0; 2], 0, tape::ENDLESS);
        Waiting {
            driver: constructed(Config::with_timing(0), 0),
            parked: None,
            send: Vec::new(),
            recv: Vec::new(),
            taken: 0,
        }
    }

    pub fn is_parked(&self) -> bool {
        self.parked.as_ref().is_some_and(|parked| !parked.over)
    }

    pub fn begin(&mut self, call: Begin, ruling: Ruling, words: &[u32], places: usize) -> Ran {
        let refusal = match ruling {
            Ruling::Document => refusals::of_begin(&call),
            Ruling::Rust => None,
        };
        self.parked = Some(Parked {
            kind: call.kind,
            address: call.address,
            send_length: call.send.len(),
            recv_length: call.recv.len(),
            over: refusal.is_some(),
            words: Vec::new(),
            shown: 0,
            filled: 0,
        });
        self.send = call.send;
        self.recv = call.recv;
        match refusal {
            Some(number) => self.refused(number),
            None => self.go_on(words, places),
        }
    }

    pub fn resume(
        &mut self,
        send: Option<Vec<u8>>,
        recv: Option<Vec<u8>>,
        words: &[u32],
        places: usize,
    ) -> Ran {
        // Lent from now on, whatever the answer.
        if let Some(send) = send {
            self.send = send;
        }
        if let Some(recv) = recv {
            self.recv = recv;
        }
        match refusals::of_resume(self.parked.as_ref(), &self.send, &self.recv) {
            Some(number) => self.refused(number),
            None => self.go_on(words, places),
        }
    }

    fn refused(&mut self, number: u8) -> Ran {
        self.taken = 0;
        Ran {
            answer: Answer::Number(number),
            shown_before: 0,
            logged: false,
        }
    }

    fn go_on(&mut self, words: &[u32], places: usize) -> Ran {
        let parked = self.parked.as_mut().expect("a call was begun");
        let (taken_before, shown_before) = (parked.words.len(), parked.shown);
        parked.words.extend_from_slice(words);

        let mut buffer = vec![0x00; parked.recv_length];
        let mut once = |buffer: &mut [u8]| {
            run(&parked.words, shown_before, places, || {
                perform(
                    &mut self.driver,
                    parked.kind,
                    parked.address,
                    &self.send,
                    buffer,
                )
            })
        };
        let end = once(&mut buffer);
        if parked.kind.receives() {
            // A place is filled where two runs over unlike buffers agree.
            let mut unlike = vec![0xFF; parked.recv_length];
            once(&mut unlike);
            let filled = buffer
                .iter()
                .zip(&unlike)
                .take_while(|(a, b)| a == b)
                .count();
            // Only what this run filled goes into the buffer lent now.
            let places = parked.filled..filled;
            self.recv[places.clone()].copy_from_slice(&buffer[places]);
            parked.filled = filled;
        }

        parked.words.truncate(tape::taken());
        self.taken = parked.words.len() - taken_before;
        parked.shown = tape::with_log(|log| log.len());
        parked.over = !matches!(end, End::Stopped(_));
        Ran {
            answer: match end {
                End::Answered(answer) => answer,
                End::Stopped(Stop::OutOfWords) => Answer::Number(9),
                End::Stopped(Stop::LogFull) => Answer::Number(10),
                End::Panicked(message) => Answer::Panic(message),
            },
            shown_before,
            logged: true,
        }
    }
}

pub fn constructed(config: Config, clock: u32) -> Driver {
    I2C1.i2c(
        PB7::default(),
        PB6::default(),
        config,
        &mut Rcc::with_apb_clk(clock),
    )
}

fn perform(driver: &mut Driver, kind: Kind, address: u8, send: &[u8], recv: &mut [u8]) -> Answer {
    let result = match kind {
        Kind::Write => driver.write(address, send),
        Kind::Read => driver.read(address, recv),
        Kind::WriteRead => driver.write_read(address, send, recv),
        Kind::SlaveWrite => driver.slave_write(send),
        Kind::SlaveRead => driver.slave_read(recv),
        Kind::SlaveWaitAddressed => {
            return match driver.slave_wait_addressed() {
                Ok((address, direction)) => Answer::Addressed(address, direction as u8),
                Err(error) => original::error(error),
            }
        }
    };
    result.map_or_else(original::error, |()| DONE)
}
