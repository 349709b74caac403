//! AES-NI. A block comes in registers, as two numbers: a load of 16 bytes would wait for the two
//! stores of the step before.

// Which intrinsics are unsafe depends on the compiler's version, so no block says it.
#![allow(unsafe_code, unsafe_op_in_unsafe_fn)]

use super::{GROUP, GROUP_BYTES};
use crate::byteorder::{BigEndian, ByteOrder};
use crate::proved::fips197::{expand_key, SubWord, MAX_WORDS};
use core::arch::x86_64::*;

/// That the processor has the instructions: [`find`](Self::find) alone makes it.
#[derive(Clone, Copy)]
pub(crate) struct Instructions(());

impl Instructions {
    /// The instructions, if the processor has them. Without `std` the target has to have them.
    #[inline]
    pub(crate) fn find() -> Option<Self> {
        #[cfg(feature = "std")]
        let is_here = std::is_x86_feature_detected!("aes");
        #[cfg(not(feature = "std"))]
        let is_here = cfg!(target_feature = "aes");
        if is_here {
            Some(Self(()))
        } else {
            None
        }
    }

    /// Writes the key schedule of a KEK of a legal length.
    #[inline(always)]
    pub(crate) fn expand(self, kek: &[u8], schedule: &mut [u8; 240]) {
        // SAFETY: the processor has the instructions.
        unsafe { expand(kek, schedule) }
    }

    #[inline(always)]
    pub(crate) fn encrypt(
        self,
        keys: &[u8; 240],
        rounds: usize,
        (low, high): (u64, u64),
    ) -> (u64, u64) {
        // SAFETY: the processor has the instructions.
        unsafe { encrypt(keys, rounds, low, high) }
    }

    #[inline(always)]
    pub(crate) fn decrypt(
        self,
        keys: &[u8; 240],
        rounds: usize,
        (low, high): (u64, u64),
    ) -> (u64, u64) {
        // SAFETY: the processor has the instructions.
        unsafe { decrypt(keys, rounds, low, high) }
    }

    /// Encrypts whole groups of blocks.
    #[inline(always)]
    pub(crate) fn encrypt_groups(self, keys: &[u8; 240], rounds: usize, groups: &mut [u8]) {
        // SAFETY: the processor has the instructions.
        unsafe { encrypt_groups(keys, rounds, groups) }
    }

    /// Decrypts whole groups of blocks.
    #[inline(always)]
    pub(crate) fn decrypt_groups(self, keys: &[u8; 240], rounds: usize, groups: &mut [u8]) {
        // SAFETY: the processor has the instructions.
        unsafe { decrypt_groups(keys, rounds, groups) }
    }
}

/// SubWord by the instruction. Only [`expand`] uses it.
struct ByInstruction;

impl SubWord for ByInstruction {
    #[inline(always)]
    fn sub_word(word: u32) -> u32 {
        // SAFETY: the processor has the instructions.
        unsafe { sub_word(word) }
    }
}

/// The last round in four equal columns, in which ShiftRows changes nothing, with no round key.
#[inline]
#[target_feature(enable = "aes,sse2")]
unsafe fn sub_word(word: u32) -> u32 {
    let columns = _mm_set1_epi32(word as i32);
    _mm_cvtsi128_si32(_mm_aesenclast_si128(columns, _mm_setzero_si128())) as u32
}

/// The proved key expansion, by a number of words that is known when it is compiled: so it takes no
/// division, and the instruction is inlined.
#[target_feature(enable = "aes,sse2")]
unsafe fn expand(kek: &[u8], schedule: &mut [u8; 240]) {
    let mut words = [0; MAX_WORDS];
    match kek.len() {
        16 => expand_key::<ByInstruction>(kek, 4, &mut words),
        24 => expand_key::<ByInstruction>(kek, 6, &mut words),
        _ => expand_key::<ByInstruction>(kek, 8, &mut words),
    }
    BigEndian::write_u32_into(&words, schedule);
}

/// Round key `k`.
#[inline]
#[target_feature(enable = "sse2")]
unsafe fn round_key(keys: &[u8; 240], k: usize) -> __m128i {
    debug_assert!(k < 15);
    _mm_loadu_si128(keys.as_ptr().cast::<__m128i>().add(k))
}

#[inline]
#[target_feature(enable = "sse2")]
unsafe fn loaded(low: u64, high: u64) -> __m128i {
    _mm_set_epi64x(high as i64, low as i64)
}

#[inline]
#[target_feature(enable = "sse2")]
unsafe fn stored(state: __m128i) -> (u64, u64) {
    let high = _mm_unpackhi_epi64(state, state);
    (
        _mm_cvtsi128_si64(state) as u64,
        _mm_cvtsi128_si64(high) as u64,
    )
}

#[target_feature(enable = "aes,sse2")]
unsafe fn encrypt(keys: &[u8; 240], rounds: usize, low: u64, high: u64) -> (u64, u64) {
    assert!(rounds < 15);
    let mut state = _mm_xor_si128(loaded(low, high), round_key(keys, 0));
    for k in 1..rounds {
        state = _mm_aesenc_si128(state, round_key(keys, k));
    }
    stored(_mm_aesenclast_si128(state, round_key(keys, rounds)))
}

/// The equivalent inverse cipher (FIPS 197, section 5.3.5). Its round keys are mixed here: no block waits
/// for that, and no call needs memory for a second schedule.
#[target_feature(enable = "aes,sse2")]
unsafe fn decrypt(keys: &[u8; 240], rounds: usize, low: u64, high: u64) -> (u64, u64) {
    assert!(rounds < 15);
    let mut state = _mm_xor_si128(loaded(low, high), round_key(keys, rounds));
    for k in (1..rounds).rev() {
        state = _mm_aesdec_si128(state, _mm_aesimc_si128(round_key(keys, k)));
    }
    stored(_mm_aesdeclast_si128(state, round_key(keys, 0)))
}

/// Block `i` of a group.
#[inline]
#[target_feature(enable = "sse2")]
unsafe fn block(group: &[u8], i: usize) -> __m128i {
    debug_assert!(16 * i + 16 <= group.len());
    let block = group.as_ptr().add(16 * i);
    let low = _mm_loadl_epi64(block.cast::<__m128i>());
    let high = _mm_loadl_epi64(block.add(8).cast::<__m128i>());
    _mm_unpacklo_epi64(low, high)
}

#[inline]
#[target_feature(enable = "sse2")]
unsafe fn set_block(group: &mut [u8], i: usize, block: __m128i) {
    debug_assert!(16 * i + 16 <= group.len());
    _mm_storeu_si128(group.as_mut_ptr().cast::<__m128i>().add(i), block);
}

/// The blocks of a group, with a round key added.
#[inline]
#[target_feature(enable = "sse2")]
unsafe fn begun(group: &[u8], key: __m128i) -> [__m128i; GROUP] {
    let mut states = [key; GROUP];
    for (i, state) in states.iter_mut().enumerate() {
        *state = _mm_xor_si128(*state, block(group, i));
    }
    states
}

/// A round of each block begins before the round of the first one ends.
#[target_feature(enable = "aes,sse2")]
unsafe fn encrypt_groups(keys: &[u8; 240], rounds: usize, groups: &mut [u8]) {
    assert!(rounds < 15);
    for group in groups.chunks_exact_mut(GROUP_BYTES) {
        let mut states = begun(group, round_key(keys, 0));
        for k in 1..rounds {
            let key = round_key(keys, k);
            for state in &mut states {
                *state = _mm_aesenc_si128(*state, key);
            }
        }
        let key = round_key(keys, rounds);
        for (i, state) in states.iter().enumerate() {
            set_block(group, i, _mm_aesenclast_si128(*state, key));
        }
    }
}

/// The equivalent inverse cipher. The round keys are mixed once for all groups.
#[target_feature(enable = "aes,sse2")]
unsafe fn decrypt_groups(keys: &[u8; 240], rounds: usize, groups: &mut [u8]) {
    assert!(rounds < 15);
    let mut mixed = [_mm_setzero_si128(); 15];
    for (k, key) in mixed.iter_mut().enumerate().take(rounds).skip(1) {
        *key = _mm_aesimc_si128(round_key(keys, k));
    }
    for group in groups.chunks_exact_mut(GROUP_BYTES) {
        let mut states = begun(group, round_key(keys, rounds));
        for key in mixed[1..rounds].iter().rev() {
            for state in &mut states {
                *state = _mm_aesdec_si128(*state, *key);
            }
        }
        let key = round_key(keys, 0);
        for (i, state) in states.iter().enumerate() {
            set_block(group, i, _mm_aesdeclast_si128(*state, key));
        }
    }
}
