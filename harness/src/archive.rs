//! The proved unit, out of the archive that `rt staticlib tpu_c` makes. All
//! unsafe code of the harness is here.

use crate::packed::{unpack, WORDS};
use crate::unit::{Snapshot, Unit};

mod raw {
    extern "C" {
        pub fn tpu_sm_state_words() -> u32;
        pub fn tpu_sm_reset(state: *mut u16, len: usize) -> u16;
        pub fn tpu_sm_read(state: *const u16, len: usize, address: u16) -> u32;
        pub fn tpu_sm_write(state: *mut u16, len: usize, address: u16, value: u16) -> u16;
        pub fn tpu_sm_advance(
            state: *mut u16,
            len: usize,
            n: u32,
            pins: *mut u16,
            pins_len: usize,
        ) -> u16;
        pub fn tpu_sm_interrupt_line(state: *const u16, len: usize) -> u16;
    }
}

/// The answer to a list of another length than the state has.
pub const WRONG_LENGTH: u16 = 100;

// One safe function for each call. SAFETY of all: the archive touches no more
// than the words that it is lent, and pointer and count are those of a slice
// that is borrowed for the whole call.

pub fn state_words() -> u32 {
    unsafe { raw::tpu_sm_state_words() }
}

pub fn reset(state: &mut [u16]) -> u16 {
    unsafe { raw::tpu_sm_reset(state.as_mut_ptr(), state.len()) }
}

/// The answer in the upper half, the word in the lower.
pub fn read(state: &[u16], address: u16) -> u32 {
    unsafe { raw::tpu_sm_read(state.as_ptr(), state.len(), address) }
}

pub fn write(state: &mut [u16], address: u16, value: u16) -> u16 {
    unsafe { raw::tpu_sm_write(state.as_mut_ptr(), state.len(), address, value) }
}

pub fn advance(state: &mut [u16], n: u32, pins: &mut [u16]) -> u16 {
    unsafe {
        raw::tpu_sm_advance(
            state.as_mut_ptr(),
            state.len(),
            n,
            pins.as_mut_ptr(),
            pins.len(),
        )
    }
}

pub fn interrupt_line(state: &[u16]) -> u16 {
    unsafe { raw::tpu_sm_interrupt_line(state.as_ptr(), state.len()) }
}

const GUARD: usize = 16;
const GUARD_WORD: u16 = 0xA55A;

/// A state of the archive's, with guard words on both sides.
#[derive(Clone)]
pub struct Archive {
    words: [u16; GUARD + WORDS + GUARD],
}

impl Archive {
    pub fn new() -> Archive {
        let mut archive = Archive::with(&[0; WORDS]);
        archive.reset();
        archive
    }

    /// In the state that these words stand for.
    pub fn with(state: &[u16; WORDS]) -> Archive {
        let mut words = [GUARD_WORD; GUARD + WORDS + GUARD];
        words[GUARD..GUARD + WORDS].copy_from_slice(state);
        Archive { words }
    }

    pub fn state(&self) -> &[u16; WORDS] {
        self.words[GUARD..]
            .first_chunk()
            .expect("all words of a state")
    }

    fn state_mut(&mut self) -> &mut [u16] {
        &mut self.words[GUARD..GUARD + WORDS]
    }
}

impl Default for Archive {
    fn default() -> Archive {
        Archive::new()
    }
}

fn taken(answer: u16) -> Result<(), u8> {
    match answer {
        0 => Ok(()),
        number => Err(number as u8),
    }
}

impl Unit for Archive {
    fn reset(&mut self) {
        let answer = reset(self.state_mut());
        assert_eq!(answer, 0, "the state has its right length");
    }

    fn read(&self, address: u16) -> Result<u16, u8> {
        let answer = read(self.state(), address);
        taken((answer >> 16) as u16).map(|()| answer as u16)
    }

    fn write(&mut self, address: u16, value: u16) -> Result<(), u8> {
        taken(write(self.state_mut(), address, value))
    }

    fn advance(&mut self, n: u32, pins: &mut [u16]) -> Result<(), u8> {
        taken(advance(self.state_mut(), n, pins))
    }

    fn interrupt_line(&self) -> bool {
        interrupt_line(self.state()) == 1
    }

    fn snapshot(&self) -> Snapshot {
        unpack(self.state())
    }

    fn is_intact(&self) -> bool {
        let (before, rest) = self.words.split_at(GUARD);
        let mut guards = before.iter().chain(&rest[WORDS..]);
        guards.all(|&word| word == GUARD_WORD)
    }
}
