//! What is measured: calls of the non-blocking driver on a link, and a call of
//! the blocking driver, each with the words of its register reads.

pub use original_nonblocking::i2c::peek::Fields;

/// The address of every transfer.
pub const ADDRESS: u8 = 0x50;

/// A call of the non-blocking driver; a length where it sends or receives.
#[derive(Clone, Copy)]
pub enum Call {
    MasterWrite(usize),
    MasterWriteRead(usize, u8),
    MasterRead(u8),
    SlaveWrite(usize),
    Check,
    Watchdog,
    Errors,
}

/// A call of the blocking driver, with its lengths.
#[derive(Clone, Copy)]
pub enum Wait {
    Write(usize),
    Read(usize),
    WriteRead(usize, usize),
}

/// Who makes the accesses.
pub enum What {
    /// Calls one after another, from a link with these fields on.
    Calls(Box<Fields>, Vec<Call>),
    /// One waiting call. Ours is also parked at every word where `cut` says so.
    Waiting { call: Wait, cut: bool },
}

/// A row of the table, or a point of the plot.
pub struct Row {
    pub name: String,
    pub what: What,
    pub words: Vec<u32>,
}

impl Row {
    pub fn calls(name: &str, link: Fields, calls: &[Call], words: &[u32]) -> Row {
        Row {
            name: name.to_string(),
            what: What::Calls(Box::new(link), calls.to_vec()),
            words: words.to_vec(),
        }
    }

    pub fn waiting(name: &str, call: Wait, cut: bool, words: Vec<u32>) -> Row {
        Row {
            name: name.to_string(),
            what: What::Waiting { call, cut },
            words,
        }
    }
}

/// A link in the middle of a transfer of `length` bytes, `index` of them moved.
pub fn link(index: usize, length: usize) -> Fields {
    Fields {
        address: ADDRESS.into(),
        watchdog: 10,
        index,
        length,
        errors: 0,
        length_write_read: 0,
        data: [0; 255],
    }
}
