// Written by generate/erase.py from crates/aes_block/src/key_init.rt, which has the contracts.

//! AES made from a key-encryption key.

use crate::proved::aes_block::schedule::{Aes, ByTable};
use crate::proved::fips197::{BadKekLength, KeyInit, MAX_WORDS, ScheduleFault, write_schedule};

// The round keys are in the value itself.
impl KeyInit for Aes {
    type Schedule = ();

    #[inline]
    fn new_in(kek: &[u8], _room: ()) -> Result<Aes, BadKekLength> {
        Aes::new(kek)
    }

    #[inline]
    fn expand(kek: &[u8], _room: (), schedule: &mut [u8]) -> Result<(), ScheduleFault> {
        write_schedule::<ByTable>(kek, &mut [0; MAX_WORDS], schedule)
    }

    #[inline]
    fn from_schedule(schedule: &[u8], _room: ()) -> Option<Aes> {
        Aes::from_schedule(schedule)
    }
}
