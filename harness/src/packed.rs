//! The state in the words that a caller of the archive lends: 128 parameter
//! words, 12 registers, TCR1, TCR2, pins, 16 words of flags and 16 of times,
//! the slot and the starts of the three levels, high first, 16 words of
//! lateness, and 16 times for which a match that has happened was set.

use crate::unit::{ChannelView, Phase, Slots, Snapshot};

pub const WORDS: usize = 211;

const REGISTERS: usize = 128;
const TCR1: usize = 140;
const TCR2: usize = 141;
const PINS: usize = 142;
const FLAGS: usize = 143;
const TIMES: usize = 159;
const SLOT: usize = 175;
const STARTS: usize = 176;
const LATE: usize = 179;
const SET: usize = 195;

/// The bits of the flags that have a meaning.
const MEANT: u16 = 0x7F;

/// The state that the words stand for. Any words stand for one: bits of the
/// flags that mean nothing, and times that the phase has no use for, are
/// passed over.
pub fn unpack(words: &[u16; WORDS]) -> Snapshot {
    let mut registers = [0; 12];
    registers.copy_from_slice(&words[REGISTERS..TCR1]);
    let mut parameters = [0; 128];
    parameters.copy_from_slice(&words[..REGISTERS]);
    let mut channels = [ChannelView::default(); 16];
    for (c, channel) in channels.iter_mut().enumerate() {
        *channel = channel_of(words[FLAGS + c], words[TIMES + c], words[SET + c]);
    }
    let mut starts = [0; 3];
    starts.copy_from_slice(&words[STARTS..LATE]);
    let mut late = [0; 16];
    late.copy_from_slice(&words[LATE..SET]);
    Snapshot {
        registers,
        late,
        words: parameters,
        tcr1: words[TCR1],
        tcr2: words[TCR2],
        pins: words[PINS],
        channels,
        slots: Slots {
            slot: words[SLOT],
            starts,
        },
    }
}

fn channel_of(flags: u16, time: u16, set: u16) -> ChannelView {
    ChannelView {
        initialised: flags & 1 != 0,
        slow: flags & 0x20 != 0,
        by_tcr2: flags & 0x40 != 0,
        level: flags & 2 != 0,
        left: flags & 4 != 0,
        phase: match (flags >> 3) & 3 {
            0 => Phase::Resting,
            1 => Phase::Requested,
            2 => Phase::Armed(time),
            _ => Phase::Matched {
                captured: time,
                time: set,
            },
        },
    }
}

/// These words after they are made to stand for the state: what has no meaning
/// stays as it was.
pub fn lay(state: &Snapshot, words: &mut [u16; WORDS]) {
    words[..REGISTERS].copy_from_slice(&state.words);
    words[REGISTERS..TCR1].copy_from_slice(&state.registers);
    words[TCR1] = state.tcr1;
    words[TCR2] = state.tcr2;
    words[PINS] = state.pins;
    for (c, channel) in state.channels.iter().enumerate() {
        words[FLAGS + c] = words[FLAGS + c] & !MEANT | flags_of(channel);
        match channel.phase {
            Phase::Resting | Phase::Requested => {}
            Phase::Armed(time) => words[TIMES + c] = time,
            Phase::Matched { captured, time } => {
                words[TIMES + c] = captured;
                words[SET + c] = time;
            }
        }
    }
    words[SLOT] = state.slots.slot;
    words[STARTS..LATE].copy_from_slice(&state.slots.starts);
    words[LATE..SET].copy_from_slice(&state.late);
}

fn flags_of(channel: &ChannelView) -> u16 {
    let phase = match channel.phase {
        Phase::Resting => 0,
        Phase::Requested => 1,
        Phase::Armed(_) => 2,
        Phase::Matched { .. } => 3,
    };
    u16::from(channel.initialised)
        | u16::from(channel.level) << 1
        | u16::from(channel.left) << 2
        | phase << 3
        | u16::from(channel.slow) << 5
        | u16::from(channel.by_tcr2) << 6
}

/// The bits without a meaning in the words of flags.
pub fn unmeant(words: &[u16; WORDS]) -> [u16; 16] {
    std::array::from_fn(|c| words[FLAGS + c] & !MEANT)
}
