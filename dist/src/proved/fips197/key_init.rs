// Written by generate/erase.py from crates/fips197/src/key_init.rt, which has the contracts.

//! The trait of every AES that is made from a key-encryption key.

use crate::proved::fips197::bad_kek_length::BadKekLength;
use crate::proved::fips197::schedule_bytes::ScheduleFault;
use crate::proved::block_pair::BlockPair;

/// AES that is made from a key-encryption key (KEK).
pub trait KeyInit: BlockPair + Sized {
    /// The memory for the round keys, if the caller lends it.
    type Schedule;

    /// Returns AES under `kek`. Fails unless the KEK is 16, 24 or 32 bytes long.
    fn new_in(kek: &[u8], schedule: Self::Schedule) -> Result<Self, BadKekLength>;

    /// Writes the key schedule of `kek` over the whole of `schedule`: 176, 208 or 240 bytes, which
    /// are the same for every implementation.
    fn expand(kek: &[u8], room: Self::Schedule, schedule: &mut [u8]) -> Result<(), ScheduleFault>;

    /// Returns AES by a key schedule that `expand` wrote. Any other bytes are taken as the words of
    /// a schedule too. Fails unless there are 176, 208 or 240.
    fn from_schedule(schedule: &[u8], room: Self::Schedule) -> Option<Self>;
}
