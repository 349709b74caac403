// Written by generate/erase.py from crates/block_lanes/src/one_by_one.rt, which has the contracts.

//! An AES that works on one block at a time, where one of many blocks is needed.

use crate::proved::block_lanes::BlockLanes;
use crate::proved::block_pair::BlockPair;
use crate::proved::fips197::{BadKekLength, KeyInit, ScheduleFault};

/// An AES that takes many blocks one after another.
pub struct OneByOne<A: KeyInit> {
    aes: A,
}

impl<A: KeyInit> BlockPair for OneByOne<A> {

    #[inline(always)]
    fn enc(&self, b: [u8; 16]) -> [u8; 16] {
        self.aes.enc(b)
    }

    #[inline(always)]
    fn dec(&self, b: [u8; 16]) -> [u8; 16] {
        self.aes.dec(b)
    }
}

impl<A: KeyInit> BlockLanes for OneByOne<A> {}

impl<A: KeyInit> KeyInit for OneByOne<A> {
    type Schedule = A::Schedule;

    #[inline(always)]
    fn new_in(kek: &[u8], schedule: A::Schedule) -> Result<OneByOne<A>, BadKekLength> {
        match A::new_in(kek, schedule) {
            Ok(aes) => Ok(OneByOne { aes }),
            Err(fault) => Err(fault),
        }
    }

    #[inline(always)]
    fn expand(kek: &[u8], room: A::Schedule, schedule: &mut [u8]) -> Result<(), ScheduleFault> {
        A::expand(kek, room, schedule)
    }

    #[inline(always)]
    fn from_schedule(schedule: &[u8], room: A::Schedule) -> Option<OneByOne<A>> {
        match A::from_schedule(schedule, room) {
            Some(aes) => Some(OneByOne { aes }),
            None => None,
        }
    }
}
