//! What every implementation under test offers, and what a comparison sees.

/// Where the group stands whose primary a channel is.
#[derive(Clone, Copy, Debug, Default, PartialEq, Eq)]
pub enum Phase {
    /// No step request taken, or the motor has arrived.
    #[default]
    Resting,
    /// Step request taken, not served yet.
    Requested,
    /// Match set for this time.
    Armed(u16),
    /// Match has happened: the time captured then, and the time for which it
    /// was set.
    Matched { captured: u16, time: u16 },
}

/// The part of a channel that no register shows.
#[derive(Clone, Copy, Debug, Default, PartialEq, Eq)]
pub struct ChannelView {
    pub initialised: bool,
    /// Initialised for TCR2.
    pub slow: bool,
    /// The group goes by TCR2.
    pub by_tcr2: bool,
    /// Prepared pin level.
    pub level: bool,
    /// Latest step of the group went left.
    pub left: bool,
    pub phase: Phase,
}

/// Where the slots of request #107 stand.
#[derive(Clone, Copy, Debug, Default, PartialEq, Eq)]
pub struct Slots {
    /// Ticks since reset, modulo 7.
    pub slot: u16,
    /// Of high, middle and low the number above the channel served last.
    pub starts: [u16; 3],
}

/// The whole state in one common shape.
#[derive(Clone, Debug, PartialEq, Eq)]
pub struct Snapshot {
    /// The words at $E0A to $E20, in order.
    pub registers: [u16; 12],
    /// The words at $E40 to $E5E, in order.
    pub late: [u16; 16],
    /// The words at $F00 to $FFE, in order. In every history the missing ones
    /// are 0.
    pub words: [u16; 128],
    pub tcr1: u16,
    pub tcr2: u16,
    pub pins: u16,
    pub channels: [ChannelView; 16],
    pub slots: Slots,
}

impl Snapshot {
    /// The word at an address that can be read.
    pub fn at(&self, address: u16) -> u16 {
        match usize::from(address) {
            a @ 0xF00.. => self.words[(a - 0xF00) / 2],
            a @ 0xE40.. => self.late[(a - 0xE40) / 2],
            a => self.registers[(a - 0xE0A) / 2],
        }
    }
}

/// One implementation of the unit. It starts in the reset state.
pub trait Unit {
    /// Goes back to the reset state.
    fn reset(&mut self);
    fn read(&self, address: u16) -> Result<u16, u8>;
    fn write(&mut self, address: u16, value: u16) -> Result<(), u8>;
    fn advance(&mut self, n: u32, pins: &mut [u16]) -> Result<(), u8>;
    fn interrupt_line(&self) -> bool;
    fn snapshot(&self) -> Snapshot;

    /// Nothing around the words of its state has been touched.
    fn is_intact(&self) -> bool {
        true
    }
}
