//! AES for the calls: by the instructions of the processor, if it has them and they give known
//! answers, else by the proved tables. The key expansion is proved in both.

mod instructions;

use crate::clear::{clear, overwrite};
use crate::proved::aes_block::Aes;
use crate::proved::block_lanes::BlockLanes;
use crate::proved::block_pair::BlockPair;
use crate::proved::fips197::{BadKekLength, KeyInit, ScheduleFault, MAX_WORDS};
use crate::proved::test_vectors::bytes::{
    DATA_16, FIPS197_2, FIPS197_3, FIPS197_4, KEY_16, KEY_24, KEY_32,
};
use core::sync::atomic::{AtomicU8, Ordering};
use instructions::{Instructions, GROUP_BYTES};

/// The bytes of the longest key schedule.
const MAX_BYTES: usize = 4 * MAX_WORDS;

/// The round keys of one KEK, in the memory of a call. They are cleared when they are dropped.
pub(crate) struct Room {
    /// The key schedule of FIPS 197, for the instructions.
    schedule: Aligned,
    /// For the tables.
    tables: Option<Aes>,
}

type Schedule = [u8; MAX_BYTES];

/// A key schedule whose address is a multiple of 16: it is cleared by whole numbers.
#[repr(align(16))]
struct Aligned(Schedule);

impl Room {
    #[inline(always)]
    pub(crate) fn new() -> Self {
        Self {
            schedule: Aligned([0; MAX_BYTES]),
            tables: None,
        }
    }

    /// Whether AES by the tables was made here. To keep a KEK makes none.
    #[inline(always)]
    pub(crate) fn has_tables(&self) -> bool {
        self.tables.is_some()
    }

    /// Writes the key schedule of a KEK, and returns its length in bytes.
    fn expand(&mut self, by: Instructions, kek: &[u8]) -> Option<usize> {
        if !matches!(kek.len(), 16 | 24 | 32) {
            return None;
        }
        by.expand(kek, &mut self.schedule.0);
        Some(4 * kek.len() + 112)
    }

    /// AES by the key schedule of this length.
    fn lend(&self, by: Instructions, len: usize) -> LentAes<'_> {
        let (schedule, rounds) = (&self.schedule.0, len / 16 - 1);
        LentAes::Instructions {
            by,
            schedule,
            rounds,
        }
    }

    /// AES by the tables.
    fn lend_tables(&mut self, aes: Aes) -> LentAes<'_> {
        LentAes::Tables(self.tables.insert(aes))
    }

    /// AES by the tables under a KEK. It is not inlined: calls that have the instructions need no memory for
    /// it.
    #[inline(never)]
    fn new_tables(&mut self, kek: &[u8]) -> Result<LentAes<'_>, BadKekLength> {
        Ok(self.lend_tables(Aes::new(kek)?))
    }

    /// AES by the tables with a key schedule.
    #[inline(never)]
    fn kept_tables(&mut self, schedule: &[u8]) -> Option<LentAes<'_>> {
        Some(self.lend_tables(Aes::from_schedule(schedule)?))
    }

    #[inline(never)]
    fn clear_tables(&mut self) {
        overwrite(&mut self.tables, Aes::from_schedule(&[0; MAX_BYTES]));
    }
}

impl Drop for Room {
    #[inline(always)]
    fn drop(&mut self) {
        clear(&mut self.schedule.0);
        if self.has_tables() {
            self.clear_tables();
        }
    }
}

/// AES under one KEK.
pub(crate) enum LentAes<'a> {
    /// By the instructions of the processor.
    Instructions {
        by: Instructions,
        schedule: &'a Schedule,
        rounds: usize,
    },
    /// By the proved tables.
    Tables(&'a Aes),
}

/// The halves of a block, as the processor reads them from memory.
#[inline(always)]
fn halves(block: [u8; 16]) -> (u64, u64) {
    let [a, b, c, d, e, f, g, h, i, j, k, l, m, n, o, p] = block;
    let low = u64::from_le_bytes([a, b, c, d, e, f, g, h]);
    let high = u64::from_le_bytes([i, j, k, l, m, n, o, p]);
    (low, high)
}

#[inline(always)]
fn joined((low, high): (u64, u64)) -> [u8; 16] {
    (u128::from(low) | u128::from(high) << 64).to_le_bytes()
}

impl BlockPair for LentAes<'_> {
    #[inline(always)]
    fn enc(&self, b: [u8; 16]) -> [u8; 16] {
        match self {
            LentAes::Instructions {
                by,
                schedule,
                rounds,
            } => joined(by.encrypt(schedule, *rounds, halves(b))),
            LentAes::Tables(aes) => aes.enc(b),
        }
    }

    #[inline(always)]
    fn dec(&self, b: [u8; 16]) -> [u8; 16] {
        match self {
            LentAes::Instructions {
                by,
                schedule,
                rounds,
            } => joined(by.decrypt(schedule, *rounds, halves(b))),
            LentAes::Tables(aes) => aes.dec(b),
        }
    }
}

/// Makes a call for the whole groups of blocks, and one for a group that begins with the blocks behind
/// them.
#[inline(always)]
fn in_groups(blocks: &mut [u8], crypt: impl Fn(&mut [u8])) {
    let rest_len = blocks.len() % GROUP_BYTES;
    let (groups, rest) = blocks.split_at_mut(blocks.len() - rest_len);
    crypt(groups);
    if rest_len != 0 {
        let mut group = [0; GROUP_BYTES];
        group[..rest_len].copy_from_slice(rest);
        crypt(&mut group);
        rest.copy_from_slice(&group[..rest_len]);
    }
}

/// The tables take one block after another.
impl BlockLanes for Aes {}

impl BlockLanes for LentAes<'_> {
    fn encrypt_many(&self, blocks: &mut [u8]) {
        match self {
            LentAes::Instructions {
                by,
                schedule,
                rounds,
            } => in_groups(blocks, |groups| {
                by.encrypt_groups(schedule, *rounds, groups);
            }),
            LentAes::Tables(aes) => aes.encrypt_many(blocks),
        }
    }

    fn decrypt_many(&self, blocks: &mut [u8]) {
        match self {
            LentAes::Instructions {
                by,
                schedule,
                rounds,
            } => in_groups(blocks, |groups| {
                by.decrypt_groups(schedule, *rounds, groups);
            }),
            LentAes::Tables(aes) => aes.decrypt_many(blocks),
        }
    }
}

impl<'a> KeyInit for LentAes<'a> {
    type Schedule = &'a mut Room;

    fn new_in(kek: &[u8], room: &'a mut Room) -> Result<Self, BadKekLength> {
        match working() {
            Some(by) => new_by(by, kek, room),
            None => room.new_tables(kek),
        }
    }

    fn expand(kek: &[u8], room: &'a mut Room, schedule: &mut [u8]) -> Result<(), ScheduleFault> {
        let by = match working() {
            Some(by) => by,
            None => return Aes::expand(kek, (), schedule),
        };
        let len = room.expand(by, kek).ok_or(ScheduleFault::BadKekLength)?;
        if schedule.len() != len {
            return Err(ScheduleFault::BadLength);
        }
        schedule.copy_from_slice(&room.schedule.0[..len]);
        Ok(())
    }

    fn from_schedule(schedule: &[u8], room: &'a mut Room) -> Option<Self> {
        let by = match working() {
            Some(by) => by,
            None => return room.kept_tables(schedule),
        };
        if !matches!(schedule.len(), 176 | 208 | 240) {
            return None;
        }
        room.schedule.0[..schedule.len()].copy_from_slice(schedule);
        Some(room.lend(by, schedule.len()))
    }
}

/// AES by the instructions under a KEK.
fn new_by<'a>(
    by: Instructions,
    kek: &[u8],
    room: &'a mut Room,
) -> Result<LentAes<'a>, BadKekLength> {
    let len = room.expand(by, kek).ok_or(BadKekLength)?;
    Ok(room.lend(by, len))
}

const UNKNOWN: u8 = 0;
const WORK: u8 = 1;
const MISSING: u8 = 2;

/// Whether the instructions give known answers, once that was tried.
static STATE: AtomicU8 = AtomicU8::new(UNKNOWN);

/// The instructions, if the processor has them and they give known answers.
#[inline]
fn working() -> Option<Instructions> {
    match STATE.load(Ordering::Relaxed) {
        WORK => Instructions::find(),
        MISSING => None,
        _ => try_out(),
    }
}

#[cold]
fn try_out() -> Option<Instructions> {
    let found = Instructions::find().filter(|by| gives_known_answers(*by));
    let state = if found.is_some() { WORK } else { MISSING };
    STATE.store(state, Ordering::Relaxed);
    found
}

/// A group of blocks, and the blocks of most of another.
const TESTED_BYTES: usize = 2 * GROUP_BYTES - 16;

/// Whether the instructions encrypt and decrypt as in FIPS 197, appendix C, one block and many.
fn gives_known_answers(by: Instructions) -> bool {
    let known = [
        (KEY_16, FIPS197_2),
        (KEY_24, FIPS197_3),
        (KEY_32, FIPS197_4),
    ];
    known.iter().all(|(kek, encrypted)| {
        let mut room = Room::new();
        match new_by(by, kek, &mut room) {
            Ok(aes) => encrypts_one(&aes, encrypted) && encrypts_many(&aes, encrypted),
            Err(_) => false,
        }
    })
}

fn encrypts_one(aes: &LentAes<'_>, encrypted: &[u8]) -> bool {
    let mut block = [0; 16];
    block.copy_from_slice(DATA_16);
    aes.enc(block) == *encrypted && aes.dec(aes.enc(block)) == block
}

fn encrypts_many(aes: &LentAes<'_>, encrypted: &[u8]) -> bool {
    let are_all = |blocks: &[u8], block: &[u8]| blocks.chunks(16).all(|found| found == block);
    let mut blocks = [0; TESTED_BYTES];
    for block in blocks.chunks_mut(16) {
        block.copy_from_slice(DATA_16);
    }
    aes.encrypt_many(&mut blocks);
    let is_encrypted = are_all(&blocks, encrypted);
    aes.decrypt_many(&mut blocks);
    is_encrypted && are_all(&blocks, DATA_16)
}

#[cfg(test)]
mod tests {
    use super::{
        instructions::Instructions, new_by, working, Aes, BlockLanes, BlockPair, LentAes, Room,
    };
    use crate::proved::fips197::KeyInit;
    use std::vec;

    /// A processor that has the instructions gets their speed.
    #[test]
    fn known_answers_are_given() {
        assert_eq!(working().is_some(), Instructions::find().is_some());
    }

    /// Both AES do the same, also by a schedule that the other one wrote.
    #[test]
    fn tables_and_instructions_agree() {
        let by = match Instructions::find() {
            Some(by) => by,
            None => return,
        };
        for len in [16, 24, 32] {
            let mut seed = 7_u8;
            let mut next = || {
                seed = seed.wrapping_mul(37).wrapping_add(11);
                seed
            };
            let kek: vec::Vec<u8> = (0..len).map(|_| next()).collect();
            let tables = Aes::new(&kek).unwrap();
            let (mut room, mut other) = (Room::new(), Room::new());
            let (mut one, mut two) = (vec![0; 4 * len + 112], vec![0; 4 * len + 112]);
            Aes::expand(&kek, (), &mut one).unwrap();
            LentAes::expand(&kek, &mut other, &mut two).unwrap();
            assert_eq!(one, two);
            let aes = new_by(by, &kek, &mut room).ok().unwrap();
            let kept = LentAes::from_schedule(&one, &mut other).unwrap();
            for _ in 0..1000 {
                let block = [(); 16].map(|()| next());
                assert_eq!(aes.enc(block), tables.enc(block));
                assert_eq!(aes.dec(block), tables.dec(block));
                assert_eq!(kept.enc(block), tables.enc(block));
                assert_eq!(kept.dec(block), tables.dec(block));
            }
        }
    }

    /// Any number of blocks at once, also by the tables: each becomes what it becomes alone.
    #[test]
    fn many_blocks() {
        for kek in [&[1; 16][..], &[2; 24], &[3; 32]] {
            let tables = Aes::new(kek).unwrap();
            let (mut room, mut other) = (Room::new(), Room::new());
            let aes = LentAes::new_in(kek, &mut room).ok().unwrap();
            let by_tables = other.new_tables(kek).ok().unwrap();
            for count in 0..50 {
                let plain: vec::Vec<u8> = (0..16 * count).map(|i| (i * i / 7) as u8).collect();
                let (mut alone, mut one, mut two) = (plain.clone(), plain.clone(), plain.clone());
                for block in alone.chunks_exact_mut(16) {
                    let encrypted = tables.enc((&*block).try_into().unwrap());
                    block.copy_from_slice(&encrypted);
                }
                aes.encrypt_many(&mut one);
                by_tables.encrypt_many(&mut two);
                assert!(one == alone && two == alone, "{} blocks", count);
                aes.decrypt_many(&mut one);
                by_tables.decrypt_many(&mut two);
                assert!(one == plain && two == plain, "{} blocks", count);
            }
        }
    }

    #[test]
    fn lengths() {
        for len in 0..300 {
            let bytes = vec![7; len];
            let mut room = Room::new();
            let is_kek = matches!(len, 16 | 24 | 32);
            assert_eq!(LentAes::new_in(&bytes, &mut room).is_ok(), is_kek);
            let is_schedule = matches!(len, 176 | 208 | 240);
            let found = LentAes::from_schedule(&bytes, &mut room).is_some();
            assert_eq!(found, is_schedule);
        }
    }
}
