//! The calls of a script, as parsed from their lines.

/// A line of a script that is a call; its words are kept beside it.
pub enum Call {
    /// `nb reset`: the link as constructed.
    LinkReset,
    /// `nb set`: puts values into the link.
    LinkSet(LinkValues),
    /// `nb new`: the constructor of the non-blocking driver.
    LinkNew(Construction),
    /// A call of the non-blocking driver that takes a link.
    Link(LinkCall),
    /// A blocking call that waits, begun.
    Begin(Begin),
    /// `bl resume`: the parked call over new words, perhaps with other slices.
    Resume {
        send: Option<Vec<u8>>,
        recv: Option<Vec<u8>>,
    },
    /// A call of the blocking driver, or of its configuration, that never waits.
    Unwaited(UnwaitedCall),
}

/// The values of an `nb set` line.
#[derive(Default)]
pub struct LinkValues {
    pub address: Option<u16>,
    pub watchdog: Option<u16>,
    pub index: Option<usize>,
    pub length: Option<usize>,
    pub errors: Option<u32>,
    pub second: Option<usize>,
    pub data: Option<Vec<u8>>,
}

pub enum LinkCall {
    MasterWrite {
        address: u16,
        bytes: Vec<u8>,
    },
    MasterWriteRead {
        address: u16,
        bytes: Vec<u8>,
        read_length: u8,
    },
    MasterRead {
        address: u16,
        length: u8,
    },
    SlaveWrite {
        bytes: Vec<u8>,
    },
    Check,
    Watchdog,
    Errors,
    MasterData,
    SlaveData,
    MasterAddress,
    SlaveAddress,
    Listen,
    Unlisten,
    Sbc(bool),
    SetAddress(u16),
}

#[derive(Clone, Copy, PartialEq, Eq, Debug)]
pub enum Kind {
    Write,
    Read,
    WriteRead,
    SlaveWrite,
    SlaveRead,
    SlaveWaitAddressed,
}

impl Kind {
    pub fn sends(self) -> bool {
        matches!(self, Kind::Write | Kind::WriteRead | Kind::SlaveWrite)
    }

    pub fn receives(self) -> bool {
        matches!(self, Kind::Read | Kind::WriteRead | Kind::SlaveRead)
    }
}

/// A blocking call with its slices; a kind without a slice has an empty one.
pub struct Begin {
    pub kind: Kind,
    pub address: u8,
    pub send: Vec<u8>,
    pub recv: Vec<u8>,
}

pub enum UnwaitedCall {
    New(Construction),
    SlaveAddressed,
    Sbc(bool),
    Listen(Event),
    Unlisten(Event),
    ClearIrq(Event),
    Timing(Construction),
    Filter(u8),
    Period(u32),
}

#[derive(Clone, Copy)]
pub enum Event {
    AddressMatch,
    Rxne,
}

/// A clock and the configuration built for it.
pub struct Construction {
    pub clock: u32,
    pub settings: Settings,
}

#[derive(Default)]
pub struct Settings {
    pub speed: Option<u32>,
    pub timing: Option<u32>,
    pub analog_off: bool,
    pub filter: Option<Filter>,
    pub own: Option<Own>,
    /// The second own address and its mask, 0 to 7.
    pub own2: Option<(u8, u8)>,
}

pub enum Filter {
    /// Through `enable_digital_filter`.
    Setter(u8),
    /// Into the field itself, past the setter.
    Field(u8),
}

pub enum Own {
    Seven(u8),
    /// Sixteen bits kept in seven-bit mode, past `slave_address`.
    SevenRaw(u16),
    Ten(u16),
}
