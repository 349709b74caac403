//! The two casts between a type of this crate and the bytes in it.

#![allow(unsafe_code)]

use crate::{KekSlice, Status};

/// A KEK that is these bytes.
pub(crate) fn kek_slice(kek: &[u8]) -> &KekSlice {
    // SAFETY: the type is transparent, so a slice and a reference to it have one layout.
    unsafe { &*(kek as *const [u8] as *const KekSlice) }
}

/// The bytes of statuses.
pub(crate) fn bytes_of(statuses: &mut [Status]) -> &mut [u8] {
    // SAFETY: the type is transparent, and any byte is a status.
    unsafe { &mut *(statuses as *mut [Status] as *mut [u8]) }
}
