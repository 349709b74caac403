//! The steps of many keys at once: the cipher gets a block of each key in one call, as a token takes
//! them. 24 calls wrap any number of keys of 32 bytes, and 48 rewrap them.
//!
//! ```
//! use keywrap::steps::many;
//! use keywrap::{Form, Status};
//!
//! # fn encrypt(blocks: &mut [[u8; 16]]) -> std::io::Result<()> { Ok(blocks.iter_mut().for_each(|it| it.reverse())) }
//! # fn decrypt(blocks: &mut [[u8; 16]]) -> std::io::Result<()> { encrypt(blocks) }
//! // Two keys of 16 bytes, each after 8 bytes for its wrapped key.
//! let mut slots = [7; 2 * 24];
//! many::wrap(Form::Plain, &mut slots, 16, 2, encrypt)?;
//!
//! let mut statuses = [Status::default(); 2];
//! let mut key_lens = [0; 2];
//! many::unwrap(Form::Plain, &mut slots, &mut key_lens, &mut statuses, decrypt)?;
//! assert_eq!(slots[24 + 8..], [7; 16]);
//! # Ok::<(), keywrap::steps::Stopped<std::io::Error>>(())
//! ```
//!
//! The slots and the statuses are those of the [calls for many keys](crate::KekSlice#impl-KekSlice-1):
//! slots of one length, one behind the other. If the call is refused or the cipher fails, the slots
//! are unchanged. The work is done in copies, which are cleared.

use super::{split, stepped, Operation, Stopped};
use crate::calls;
use crate::clear::clear;
use crate::error::{result_of, Error, Result};
use crate::many::Status;
use crate::sys;
use crate::{room, Form, Forms, IV};
use alloc::vec::Vec;

/// Copies of the slots, and how far each is.
struct Lanes {
    texts: Vec<u8>,
    text_len: usize,
    states: Vec<State>,
}

/// What the library keeps of a text between two runs. A run is all steps of a wrap or an unwrap.
#[derive(Clone, Copy, Default)]
struct State {
    phase: u32,
    steps: u64,
    block: [u8; 16],
}

impl Drop for Lanes {
    fn drop(&mut self) {
        self.clear();
    }
}

/// Blocks of some of the texts, one behind the other.
struct Blocks(Vec<[u8; 16]>);

impl Drop for Blocks {
    fn drop(&mut self) {
        self.0.iter_mut().for_each(|block| clear(block));
    }
}

impl Lanes {
    /// Copies `count` slots of one length.
    fn new(slots: &[u8], count: usize) -> Result<Self> {
        let text_len = slots.len().checked_div(count).unwrap_or(0);
        // No wrapped key is shorter than its first 8 bytes.
        if text_len < 8 || slots.len() != text_len * count {
            return Err(Error::InvalidDataSize);
        }
        Ok(Self {
            texts: slots.to_vec(),
            text_len,
            states: alloc::vec![State::default(); count],
        })
    }

    /// Clears what may be key material.
    fn clear(&mut self) {
        clear(&mut self.texts);
        for state in &mut self.states {
            clear(&mut state.block);
        }
    }

    /// Makes a call for each text: its 8 bytes before the registers, these, and its state.
    fn each(
        &mut self,
        mut call: impl FnMut(&mut [u8], &mut [u8], &mut State) -> Result<()>,
    ) -> Result<()> {
        let texts = self.texts.chunks_exact_mut(self.text_len);
        for (text, state) in texts.zip(&mut self.states) {
            let (first, registers) = split(text);
            call(first, registers, state)?;
        }
        Ok(())
    }

    /// Makes all steps of a run of the texts for which `runs` is true, with one call of the cipher for
    /// a step of all.
    fn run<E>(
        &mut self,
        runs: impl Fn(&State) -> bool,
        step: fn(&mut [u8], &mut u64, &mut [u8; 16]) -> i32,
        mut cipher: impl FnMut(&mut [[u8; 16]]) -> core::result::Result<(), E>,
    ) -> core::result::Result<(), Stopped<E>> {
        let running = self.states.iter().filter(|state| runs(state));
        // A vector that grows would leave copies of the blocks in freed memory.
        let mut blocks = Blocks(Vec::with_capacity(self.states.len()));
        blocks.0.extend(running.map(|state| state.block));
        for _ in 0..calls::step_count(room(self.text_len)) {
            cipher(&mut blocks.0).map_err(Stopped::Cipher)?;
            let texts = self.texts.chunks_exact_mut(self.text_len);
            let all = texts.zip(&mut self.states);
            let running = all.filter(|(_, state)| runs(state));
            for ((text, state), block) in running.zip(&mut blocks.0) {
                let (_, registers) = split(text);
                stepped(step(registers, &mut state.steps, block))?;
            }
        }
        let running = self.states.iter_mut().filter(|state| runs(state));
        for (state, block) in running.zip(&blocks.0) {
            state.block = *block;
        }
        Ok(())
    }
}

/// The registers of a wrapped key, and the 8 bytes before them.
fn first_of(first: &mut [u8]) -> Result<&mut [u8; 8]> {
    first.try_into().map_err(|_| Error::InvalidDataSize)
}

/// Wraps keys of `key_len` bytes, as [`wrap_many`](crate::KekSlice::wrap_many) does, with AES by
/// `encrypt`. There are `count` slots.
pub fn wrap<E>(
    form: Form,
    slots: &mut [u8],
    key_len: usize,
    count: usize,
    encrypt: impl FnMut(&mut [[u8; 16]]) -> core::result::Result<(), E>,
) -> core::result::Result<(), Stopped<E>> {
    let mut lanes = Lanes::new(slots, count)?;
    if !form.has_key_of(key_len) || lanes.text_len != form.text_len(key_len) {
        return Err(Error::InvalidDataSize.into());
    }
    lanes.each(|_, registers, state| {
        let State { steps, block, .. } = state;
        let status = match form {
            Form::Plain => calls::begin_wrap(&IV, registers, steps, block),
            Form::Padded => calls::begin_wrap_padded(key_len, registers, steps, block),
        };
        result_of(status, 0, Error::InvalidDataSize)
    })?;
    lanes.run(|_| true, calls::step_wrap, encrypt)?;
    lanes.each(|first, registers, state| {
        let first = first_of(first)?;
        stepped(calls::end_wrap(first, registers, state.steps, &state.block))
    })?;
    slots.copy_from_slice(&lanes.texts);
    Ok(())
}

/// Unwraps each slot, as [`unwrap_many`](crate::KekSlice::unwrap_many) does, with AES by `decrypt`.
/// The key of a slot begins 8 bytes after its start. The lengths of the keys, or 0, are in
/// `key_lens`.
pub fn unwrap<E>(
    form: Form,
    slots: &mut [u8],
    key_lens: &mut [usize],
    statuses: &mut [Status],
    decrypt: impl FnMut(&mut [[u8; 16]]) -> core::result::Result<(), E>,
) -> core::result::Result<(), Stopped<E>> {
    let count = statuses.len();
    if key_lens.len() != count {
        return Err(Error::InvalidOutputSize { expected: count }.into());
    }
    let mut lanes = Lanes::new(slots, count)?;
    if !form.has_text_of(lanes.text_len) {
        return Err(Error::InvalidDataSize.into());
    }
    lanes.each(|first, registers, state| {
        let begin = match form {
            Form::Plain => calls::begin_unwrap,
            Form::Padded => calls::begin_unwrap_padded,
        };
        let first = first_of(first)?;
        let status = begin(first, registers, &mut state.steps, &mut state.block);
        result_of(status, 0, Error::InvalidDataSize)
    })?;
    lanes.run(|_| true, calls::step_unwrap, decrypt)?;
    let mut ends = key_lens.iter_mut().zip(statuses);
    lanes.each(|first, registers, state| {
        // As after the call in place.
        first.fill(0);
        if let Some((key_len, status)) = ends.next() {
            *status = Status(end_unwrap(form, registers, state, key_len) as u8);
        }
        Ok(())
    })?;
    slots.copy_from_slice(&lanes.texts);
    Ok(())
}

fn end_unwrap(form: Form, registers: &mut [u8], state: &mut State, key_len: &mut usize) -> i32 {
    let State { steps, block, .. } = state;
    if let Form::Padded = form {
        return calls::end_unwrap_padded(registers, *steps, block, key_len);
    }
    let status = calls::end_unwrap(&IV, registers, *steps, block);
    *key_len = match status {
        sys::KEYWRAP_OK => registers.len(),
        _ => 0,
    };
    status
}

/// Rewraps each slot, as [`rewrap_many`](crate::KekSlice::rewrap_many) does, with a function that does
/// an operation on blocks. Only the blocks of keys that are not under the old KEK are decrypted under
/// the new one.
pub fn rewrap<E>(
    slots: &mut [u8],
    forms: Forms,
    pass_new: bool,
    statuses: &mut [Status],
    mut cipher: impl FnMut(Operation, &mut [[u8; 16]]) -> core::result::Result<(), E>,
) -> core::result::Result<(), Stopped<E>> {
    let flags = forms.flags(pass_new);
    let mut lanes = Lanes::new(slots, statuses.len())?;
    begin_rewrap(&mut lanes, slots, flags)?;
    let mut ended = alloc::vec![Status::default(); statuses.len()];
    while let Some(operation) = lanes.states.iter().find_map(operation_of) {
        let is_running = |state: &State| operation_of(state) == Some(operation);
        let step = match operation {
            Operation::EncryptNew => calls::step_wrap,
            Operation::DecryptOld | Operation::DecryptNew => calls::step_unwrap,
        };
        lanes.run(is_running, step, |blocks| cipher(operation, blocks))?;
        end_run(&mut lanes, slots, flags, is_running, &mut ended);
    }
    slots.copy_from_slice(&lanes.texts);
    statuses.copy_from_slice(&ended);
    Ok(())
}

/// Begins to rewrap each text. A length that no wrapped key under the old KEK has is refused, too: the
/// rewrapping of one text only asks whether it is new already.
fn begin_rewrap(lanes: &mut Lanes, slots: &[u8], flags: u32) -> Result<()> {
    let texts = slots.chunks_exact(lanes.text_len);
    for (text, state) in texts.zip(&mut lanes.states) {
        let State {
            phase,
            steps,
            block,
        } = state;
        let status = calls::begin_rewrap(flags, text, phase, steps, block);
        result_of(status, 0, Error::InvalidDataSize)?;
        if operation_of(state) != Some(Operation::DecryptOld) {
            return Err(Error::InvalidDataSize);
        }
    }
    Ok(())
}

/// What the next run of a text does, if it has not ended.
fn operation_of(state: &State) -> Option<Operation> {
    Operation::of(state.phase)
}

/// Has the library end the run of these texts: then the phase of each is that of its next run, or its
/// status is final.
fn end_run(
    lanes: &mut Lanes,
    slots: &[u8],
    flags: u32,
    is_running: impl Fn(&State) -> bool,
    ended: &mut [Status],
) {
    let given = slots.chunks_exact(lanes.text_len);
    let texts = lanes.texts.chunks_exact_mut(lanes.text_len);
    let all = given.zip(texts).zip(lanes.states.iter_mut().zip(ended));
    for ((given, text), (state, ended)) in all.filter(|(_, (state, _))| is_running(state)) {
        let State {
            phase,
            steps,
            block,
        } = state;
        *ended = Status(calls::next_rewrap_from(flags, given, text, phase, steps, block) as u8);
    }
}

#[cfg(test)]
mod tests {
    use super::*;

    #[cfg(feature = "alloc")]
    #[test]
    fn lanes_are_cleared() {
        let mut lanes = Lanes::new(&[7; 48], 2).unwrap();
        lanes.states[1].block = [7; 16];
        lanes.clear();
        assert_eq!(lanes.texts, [0; 48]);
        assert_eq!(lanes.states[1].block, [0; 16]);
    }
}
