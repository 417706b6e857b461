//! The rows of the table and the points of the plot.

use crate::script::{link, Call, Fields, Row, Wait};

// The flags of ISR.
const TXIS: u32 = 1 << 1;
const RXNE: u32 = 1 << 2;
const ADDR: u32 = 1 << 3;
const NACKF: u32 = 1 << 4;
const STOPF: u32 = 1 << 5;
const TC: u32 = 1 << 6;
const TCR: u32 = 1 << 7;
const BERR: u32 = 1 << 8;
const ARLO: u32 = 1 << 9;
const DIR: u32 = 1 << 16;
const CODE: u32 = 0x29 << 17;

/// A byte that comes in, and CR2 with no START.
const BYTE: u32 = 0xA5;
const CR2: u32 = 0;

/// The lengths of the plot's transfers.
pub const LENGTHS: [usize; 11] = [1, 2, 8, 16, 32, 64, 96, 128, 160, 208, 255];
/// The idle words of the plot's wait.
pub const IDLE: [usize; 6] = [0, 50, 100, 200, 300, 400];

/// The non-blocking calls.
pub fn calls() -> Vec<Row> {
    use Call::*;
    let idle = || link(0, 0);
    let half = || link(1, 4);
    let second = Fields {
        length_write_read: 2,
        ..link(1, 2)
    };
    let watchdog = |left| Fields {
        watchdog: left,
        ..half()
    };
    let errors = Fields {
        errors: 3,
        ..half()
    };
    let start = [CR2; 2];
    let read = [CR2, BYTE, CR2];
    let check = |name: &str, link, words: &[u32]| {
        Row::calls(&format!("`check_isr_flags`, {name}"), link, &[Check], words)
    };
    vec![
        Row::calls("`master_write`, 2 bytes", idle(), &[MasterWrite(2)], &start),
        Row::calls(
            "`master_write`, 255 bytes",
            idle(),
            &[MasterWrite(255)],
            &start,
        ),
        Row::calls(
            "`master_write`, bus busy",
            idle(),
            &[MasterWrite(2)],
            &[1 << 13],
        ),
        Row::calls(
            "`master_write_read`, 2 bytes",
            idle(),
            &[MasterWriteRead(2, 2)],
            &start,
        ),
        Row::calls(
            "`master_write_read`, 255 bytes",
            idle(),
            &[MasterWriteRead(255, 255)],
            &start,
        ),
        Row::calls("`master_read`, 2 bytes", idle(), &[MasterRead(2)], &read),
        Row::calls(
            "`master_read`, 255 bytes",
            idle(),
            &[MasterRead(255)],
            &read,
        ),
        Row::calls("`slave_write`, 2 bytes", half(), &[SlaveWrite(2)], &[CR2]),
        Row::calls(
            "`slave_write`, 255 bytes",
            half(),
            &[SlaveWrite(255)],
            &[CR2],
        ),
        check("BERR", half(), &[BERR]),
        check("ARLO", half(), &[ARLO]),
        check("NACKF", half(), &[NACKF]),
        check("TXIS, a byte sent", half(), &[TXIS]),
        check("TXIS, none left", link(4, 4), &[TXIS]),
        check("RXNE, a byte received", half(), &[RXNE, BYTE]),
        check("RXNE, buffer full", link(4, 4), &[RXNE, RXNE, BYTE]),
        check("STOPF, Data", half(), &[STOPF]),
        check("STOPF, nothing moved", link(0, 4), &[STOPF]),
        check("TC, second half", second, &[TC]),
        check("TC, short frame", half(), &[TC, CR2]),
        check("TCR", half(), &[TCR, CR2]),
        check("ADDR, master writes", idle(), &[ADDR | CODE, CR2]),
        check("ADDR, master reads", idle(), &[ADDR | CODE | DIR]),
        check("no flag", half(), &[0]),
        Row::calls("`execute_watchdog`, at 0", watchdog(0), &[Watchdog], &[]),
        Row::calls(
            "`execute_watchdog`, at 1",
            watchdog(1),
            &[Watchdog],
            &[1, 0, 0],
        ),
        Row::calls("`execute_watchdog`, at 10", watchdog(10), &[Watchdog], &[]),
        Row::calls("`get_errors_reset`", errors, &[Errors], &[]),
    ]
}

/// The blocking calls, uncut and parked at every word.
pub fn waits() -> Vec<Row> {
    let mut rows = Vec::new();
    for cut in [false, true] {
        for n in [2, 255] {
            let parked = if cut { ", parked at every word" } else { "" };
            let row = |name: &str, call, words| {
                Row::waiting(
                    &format!("blocking `{name}`, {n} bytes{parked}"),
                    call,
                    cut,
                    words,
                )
            };
            rows.push(row("write", Wait::Write(n), write_words(0, n)));
            rows.push(row("read", Wait::Read(n), read_words(n)));
            rows.push(row(
                "write_read",
                Wait::WriteRead(n, n),
                write_read_words(n),
            ));
        }
    }
    rows
}

/// One curve of the plot: its name, what it counts along, and its points.
pub struct Curve {
    pub name: &'static str,
    pub points: Vec<(usize, Row)>,
}

/// The curves: transfers over their length, and a wait over its idle words.
pub fn curves() -> Vec<Curve> {
    let over = |name, ticks: &[usize], row: &dyn Fn(usize) -> Row| Curve {
        name,
        points: ticks.iter().map(|&n| (n, row(n))).collect(),
    };
    vec![
        over("master_write and its checks", &LENGTHS, &transfer),
        over("blocking write", &LENGTHS, &|n| {
            Row::waiting("", Wait::Write(n), false, write_words(0, n))
        }),
        over("blocking read", &LENGTHS, &|n| {
            Row::waiting("", Wait::Read(n), false, read_words(n))
        }),
        over("blocking write of 1 byte", &IDLE, &|idle| {
            Row::waiting("", Wait::Write(1), false, write_words(idle, 1))
        }),
    ]
}

/// `master_write` of `n` bytes, then a check for each byte and for the stop.
fn transfer(n: usize) -> Row {
    let mut calls = vec![Call::MasterWrite(n)];
    calls.resize(n + 2, Call::Check);
    let mut words = vec![CR2; 2];
    words.resize(n + 2, TXIS);
    words.push(STOPF);
    Row::calls("", link(0, 0), &calls, &words)
}

/// The stop, and the two ISR reads that flush TXDR.
const STOP: [u32; 3] = [STOPF, 0, 0];

fn write_words(idle: usize, n: usize) -> Vec<u32> {
    [vec![CR2; 2], vec![0; idle], vec![TXIS; n], STOP.to_vec()].concat()
}

fn read_words(n: usize) -> Vec<u32> {
    [vec![CR2, BYTE, CR2], [RXNE, BYTE].repeat(n), STOP.to_vec()].concat()
}

fn write_read_words(n: usize) -> Vec<u32> {
    [
        vec![CR2],
        vec![TXIS; n],
        vec![TC],
        [RXNE, BYTE].repeat(n),
        STOP.to_vec(),
    ]
    .concat()
}
