//! The Arm cryptographic extension. AESE and AESD add the round key first, so the last round key needs
//! an addition of its own. The intrinsics of these instructions are newer than Rust 1.63, so they are
//! written out.

// Which intrinsics are unsafe depends on the compiler's version, so no block says it.
#![allow(unsafe_code, unsafe_op_in_unsafe_fn)]

use super::{GROUP, GROUP_BYTES};
use crate::byteorder::{BigEndian, ByteOrder};
use crate::proved::fips197::{expand_key, SubWord, MAX_WORDS};
use core::arch::aarch64::*;
use core::arch::asm;

/// That the processor has the instructions: [`find`](Self::find) alone makes it.
#[derive(Clone, Copy)]
pub(crate) struct Instructions(());

impl Instructions {
    /// The instructions, if the processor has them. Without `std` the target has to have them.
    #[inline]
    pub(crate) fn find() -> Option<Self> {
        #[cfg(feature = "std")]
        let is_here = std::arch::is_aarch64_feature_detected!("aes");
        #[cfg(not(feature = "std"))]
        let is_here = cfg!(target_feature = "aes");
        if is_here {
            Some(Self(()))
        } else {
            None
        }
    }

    /// Writes the key schedule of a KEK of a legal length.
    #[inline(always)]
    pub(crate) fn expand(self, kek: &[u8], schedule: &mut [u8; 240]) {
        // SAFETY: the processor has the instructions.
        unsafe { expand(kek, schedule) }
    }

    #[inline(always)]
    pub(crate) fn encrypt(
        self,
        keys: &[u8; 240],
        rounds: usize,
        (low, high): (u64, u64),
    ) -> (u64, u64) {
        // SAFETY: the processor has the instructions.
        unsafe { encrypt(keys, rounds, low, high) }
    }

    #[inline(always)]
    pub(crate) fn decrypt(
        self,
        keys: &[u8; 240],
        rounds: usize,
        (low, high): (u64, u64),
    ) -> (u64, u64) {
        // SAFETY: the processor has the instructions.
        unsafe { decrypt(keys, rounds, low, high) }
    }

    /// Encrypts whole groups of blocks.
    #[inline(always)]
    pub(crate) fn encrypt_groups(self, keys: &[u8; 240], rounds: usize, groups: &mut [u8]) {
        // SAFETY: the processor has the instructions.
        unsafe { encrypt_groups(keys, rounds, groups) }
    }

    /// Decrypts whole groups of blocks.
    #[inline(always)]
    pub(crate) fn decrypt_groups(self, keys: &[u8; 240], rounds: usize, groups: &mut [u8]) {
        // SAFETY: the processor has the instructions.
        unsafe { decrypt_groups(keys, rounds, groups) }
    }
}

/// SubWord by the instruction. Only [`expand`] uses it.
struct ByInstruction;

impl SubWord for ByInstruction {
    #[inline(always)]
    fn sub_word(word: u32) -> u32 {
        // SAFETY: the processor has the instructions.
        unsafe { sub_word(word) }
    }
}

/// AddRoundKey, SubBytes and ShiftRows.
#[inline]
#[target_feature(enable = "neon,aes")]
unsafe fn aese(mut state: uint8x16_t, key: uint8x16_t) -> uint8x16_t {
    asm!(
        "aese {0:v}.16b, {1:v}.16b",
        inout(vreg) state,
        in(vreg) key,
        options(pure, nomem, nostack, preserves_flags)
    );
    state
}

/// The same and MixColumns. Processors run the two side by side as one.
#[inline]
#[target_feature(enable = "neon,aes")]
unsafe fn aese_aesmc(mut state: uint8x16_t, key: uint8x16_t) -> uint8x16_t {
    asm!(
        "aese {0:v}.16b, {1:v}.16b",
        "aesmc {0:v}.16b, {0:v}.16b",
        inout(vreg) state,
        in(vreg) key,
        options(pure, nomem, nostack, preserves_flags)
    );
    state
}

/// AddRoundKey, InvSubBytes and InvShiftRows.
#[inline]
#[target_feature(enable = "neon,aes")]
unsafe fn aesd(mut state: uint8x16_t, key: uint8x16_t) -> uint8x16_t {
    asm!(
        "aesd {0:v}.16b, {1:v}.16b",
        inout(vreg) state,
        in(vreg) key,
        options(pure, nomem, nostack, preserves_flags)
    );
    state
}

/// The same and InvMixColumns.
#[inline]
#[target_feature(enable = "neon,aes")]
unsafe fn aesd_aesimc(mut state: uint8x16_t, key: uint8x16_t) -> uint8x16_t {
    asm!(
        "aesd {0:v}.16b, {1:v}.16b",
        "aesimc {0:v}.16b, {0:v}.16b",
        inout(vreg) state,
        in(vreg) key,
        options(pure, nomem, nostack, preserves_flags)
    );
    state
}

/// InvMixColumns.
#[inline]
#[target_feature(enable = "neon,aes")]
unsafe fn aesimc(mut state: uint8x16_t) -> uint8x16_t {
    asm!(
        "aesimc {0:v}.16b, {0:v}.16b",
        inout(vreg) state,
        options(pure, nomem, nostack, preserves_flags)
    );
    state
}

/// The first half of a round in four equal columns, in which ShiftRows changes nothing, with no round
/// key.
#[inline]
#[target_feature(enable = "neon,aes")]
unsafe fn sub_word(word: u32) -> u32 {
    let columns = vreinterpretq_u8_u32(vdupq_n_u32(word));
    let made = aese(columns, vdupq_n_u8(0));
    vgetq_lane_u32::<0>(vreinterpretq_u32_u8(made))
}

/// The proved key expansion, by a number of words that is known when it is compiled: so it takes no
/// division, and the instruction is inlined.
#[target_feature(enable = "neon,aes")]
unsafe fn expand(kek: &[u8], schedule: &mut [u8; 240]) {
    let mut words = [0; MAX_WORDS];
    match kek.len() {
        16 => expand_key::<ByInstruction>(kek, 4, &mut words),
        24 => expand_key::<ByInstruction>(kek, 6, &mut words),
        _ => expand_key::<ByInstruction>(kek, 8, &mut words),
    }
    BigEndian::write_u32_into(&words, schedule);
}

/// Round key `k`.
#[inline]
#[target_feature(enable = "neon")]
unsafe fn round_key(keys: &[u8; 240], k: usize) -> uint8x16_t {
    debug_assert!(k < 15);
    vld1q_u8(keys.as_ptr().add(16 * k))
}

#[inline]
#[target_feature(enable = "neon")]
unsafe fn loaded(low: u64, high: u64) -> uint8x16_t {
    vcombine_u8(vcreate_u8(low), vcreate_u8(high))
}

#[inline]
#[target_feature(enable = "neon")]
unsafe fn stored(state: uint8x16_t) -> (u64, u64) {
    let halves = vreinterpretq_u64_u8(state);
    (vgetq_lane_u64::<0>(halves), vgetq_lane_u64::<1>(halves))
}

#[target_feature(enable = "neon,aes")]
unsafe fn encrypt(keys: &[u8; 240], rounds: usize, low: u64, high: u64) -> (u64, u64) {
    assert!((1..15).contains(&rounds));
    let mut state = loaded(low, high);
    for k in 0..rounds - 1 {
        state = aese_aesmc(state, round_key(keys, k));
    }
    state = aese(state, round_key(keys, rounds - 1));
    stored(veorq_u8(state, round_key(keys, rounds)))
}

/// The equivalent inverse cipher (FIPS 197, section 5.3.5). Its round keys are mixed here: no block waits
/// for that, and no call needs memory for a second schedule.
#[target_feature(enable = "neon,aes")]
unsafe fn decrypt(keys: &[u8; 240], rounds: usize, low: u64, high: u64) -> (u64, u64) {
    assert!((1..15).contains(&rounds));
    let mut state = loaded(low, high);
    let mut key = round_key(keys, rounds);
    for k in (1..rounds).rev() {
        state = aesd_aesimc(state, key);
        key = aesimc(round_key(keys, k));
    }
    state = aesd(state, key);
    stored(veorq_u8(state, round_key(keys, 0)))
}

/// Block `i` of a group.
#[inline]
#[target_feature(enable = "neon")]
unsafe fn block(group: &[u8], i: usize) -> uint8x16_t {
    debug_assert!(16 * i + 16 <= group.len());
    let block = group.as_ptr().add(16 * i);
    vcombine_u8(vld1_u8(block), vld1_u8(block.add(8)))
}

#[inline]
#[target_feature(enable = "neon")]
unsafe fn set_block(group: &mut [u8], i: usize, block: uint8x16_t) {
    debug_assert!(16 * i + 16 <= group.len());
    vst1q_u8(group.as_mut_ptr().add(16 * i), block);
}

#[inline]
#[target_feature(enable = "neon")]
unsafe fn blocks(group: &[u8]) -> [uint8x16_t; GROUP] {
    let mut states = [vdupq_n_u8(0); GROUP];
    for (i, state) in states.iter_mut().enumerate() {
        *state = block(group, i);
    }
    states
}

/// A round of each block begins before the round of the first one ends.
#[target_feature(enable = "neon,aes")]
unsafe fn encrypt_groups(keys: &[u8; 240], rounds: usize, groups: &mut [u8]) {
    assert!((1..15).contains(&rounds));
    for group in groups.chunks_exact_mut(GROUP_BYTES) {
        let mut states = blocks(group);
        for k in 0..rounds - 1 {
            let key = round_key(keys, k);
            for state in &mut states {
                *state = aese_aesmc(*state, key);
            }
        }
        let (key, last) = (round_key(keys, rounds - 1), round_key(keys, rounds));
        for (i, state) in states.iter().enumerate() {
            set_block(group, i, veorq_u8(aese(*state, key), last));
        }
    }
}

/// The equivalent inverse cipher. The round keys are mixed once for all groups.
#[target_feature(enable = "neon,aes")]
unsafe fn decrypt_groups(keys: &[u8; 240], rounds: usize, groups: &mut [u8]) {
    assert!((1..15).contains(&rounds));
    let mut mixed = [vdupq_n_u8(0); 15];
    mixed[rounds] = round_key(keys, rounds);
    for (k, key) in mixed.iter_mut().enumerate().take(rounds).skip(1) {
        *key = aesimc(round_key(keys, k));
    }
    for group in groups.chunks_exact_mut(GROUP_BYTES) {
        let mut states = blocks(group);
        for key in mixed[2..=rounds].iter().rev() {
            for state in &mut states {
                *state = aesd_aesimc(*state, *key);
            }
        }
        let last = round_key(keys, 0);
        for (i, state) in states.iter().enumerate() {
            set_block(group, i, veorq_u8(aesd(*state, mixed[1]), last));
        }
    }
}
