// Written by generate/erase.py from crates/key_wrap_core/src/machine.rt, which has the contracts.

//! The machine of RFC 3394, section 2.2, in its indexed form: A is a word, and the registers R[1]
//! .. R[n] stay in place in a slice.

use crate::proved::key_wrap_core::lengths::WORD;
use crate::proved::key_wrap_core::steps::{
    first_block, last_block, step_count, step_registers, step_words, unstep_registers,
};
use crate::proved::block_pair::{BlockPair, Meter};
use crate::byteorder::{BigEndian, ByteOrder};

// The key data in the registers become C1 .. Cn, and the result is C0 (RFC 3394, section 2.2.1; for
// one word RFC 5649, section 4.1).
pub(crate) fn machine_wrap<B: BlockPair>(meter: &mut Meter<B>, iv: u64, registers: &mut [u8]) -> u64 {
    if registers.len() > WORD {
        return wrap_words(meter, iv, registers);
    }
    let block = step_registers(registers, 0, meter.enc(first_block(iv, registers)));
    BigEndian::read_u64(&block)
}

// `machine_wrap` of two words and more: a loop that asks for the form in each step takes 6 to 10 % longer.
fn wrap_words<B: BlockPair>(meter: &mut Meter<B>, iv: u64, registers: &mut [u8]) -> u64 {
    let mut block = first_block(iv, registers);
    for done in 0..6 * (registers.len() / WORD) {
        block = step_words(registers, done, meter.enc(block));
    }
    BigEndian::read_u64(&block)
}

// C1 .. Cn in the registers become the key data, and the result is the initial value (RFC 3394,
// section 2.2.2; for one word RFC 5649, section 4.2).
pub(crate) fn machine_unwrap<B: BlockPair>(
    meter: &mut Meter<B>,
    c0: u64,
    registers: &mut [u8],
) -> u64 {
    let mut block = last_block(c0, registers);
    for left in (0..step_count(registers.len())).rev() {
        block = unstep_registers(registers, left, meter.dec(block));
    }
    BigEndian::read_u64(&block)
}
