//! The calls for many keys.

use crate::calls;
use crate::cast::bytes_of;
use crate::error::{result_of, Error, Result};
use crate::sys::{KEYWRAP_ALREADY_NEW, KEYWRAP_INTEGRITY, KEYWRAP_NEW_PADDED, KEYWRAP_OLD_PADDED};
use crate::{room, Form, Forms, KekSlice, Kind, Rewrapped};

/// What became of one slot. The default, before a call, is a failed integrity check.
#[derive(Clone, Copy, Debug, PartialEq, Eq)]
#[repr(transparent)]
pub struct Status(pub(crate) u8);

impl Default for Status {
    fn default() -> Self {
        Status(KEYWRAP_INTEGRITY as u8)
    }
}

impl Status {
    /// Returns what the call for one key returns. What a rewrap did is in
    /// [`rewrapped`](Self::rewrapped).
    pub fn result(self) -> Result<()> {
        self.rewrapped().map(|_| ())
    }

    /// Returns what [`KekSlice::rewrap`] returns.
    pub fn rewrapped(self) -> Result<Rewrapped> {
        match i32::from(self.0) {
            KEYWRAP_ALREADY_NEW => Ok(Rewrapped::AlreadyNew),
            status => result_of(status, 0, Error::InvalidDataSize).map(|()| Rewrapped::Fresh),
        }
    }
}

/// Many keys of one length in one call, which makes the key schedules once. The slots are of one
/// length, one behind the other, as many as statuses. Each slot and its status become what the call
/// in place for one key makes of it. After an error of the whole call nothing is changed.
///
/// The iterators return what the call for one key returns, slot by slot.
impl KekSlice {
    /// Wraps keys of `key_len` bytes, as [`wrap_in_place`](Self::wrap_in_place) or
    /// [`wrap_with_padding_in_place`](Self::wrap_with_padding_in_place) does.
    pub fn wrap_many(
        &self,
        form: Form,
        slots: &mut [u8],
        key_len: usize,
        statuses: &mut [Status],
    ) -> Result<()> {
        let status = calls::wrap_many(
            &self.0,
            slots,
            key_len,
            form.flag(KEYWRAP_NEW_PADDED),
            bytes_of(statuses),
        );
        self.result(status, false, 0)
    }

    /// Unwraps each slot, as [`unwrap_in_place`](Self::unwrap_in_place) or
    /// [`unwrap_with_padding_in_place`](Self::unwrap_with_padding_in_place) does. Returns the keys.
    /// Their lengths, or 0, are also in `key_lens`.
    pub fn unwrap_many<'a>(
        &self,
        form: Form,
        slots: &'a mut [u8],
        key_lens: &'a mut [usize],
        statuses: &'a mut [Status],
    ) -> Result<impl Iterator<Item = Result<&'a [u8]>>> {
        let status = calls::unwrap_many(
            &self.0,
            slots,
            form.flag(KEYWRAP_OLD_PADDED),
            key_lens,
            bytes_of(statuses),
        );
        self.result(status, key_lens.len() != statuses.len(), statuses.len())?;
        let all = slots.chunks(slot_len(slots, statuses).max(1));
        let all = all.zip(key_lens.iter().zip(statuses.iter()));
        Ok(all.map(|(slot, (key_len, status))| {
            status.result()?;
            let key = slot.get(8..).and_then(|rest| rest.get(..*key_len));
            key.ok_or(Error::IntegrityCheckFailed)
        }))
    }

    /// Rewraps each slot, as [`rewrap`](Self::rewrap) does.
    pub fn rewrap_many<'a>(
        &self,
        new_kek: &KekSlice,
        slots: &mut [u8],
        forms: Forms,
        pass_new: bool,
        statuses: &'a mut [Status],
    ) -> Result<impl Iterator<Item = Result<Rewrapped>> + 'a> {
        let status = calls::rewrap_many(
            &self.0,
            &new_kek.0,
            slots,
            forms.flags(pass_new),
            bytes_of(statuses),
        );
        result_of(status, self.refused_with(new_kek), Error::InvalidDataSize)?;
        Ok(statuses.iter().map(|status| status.rewrapped()))
    }

    /// Finds the form of each slot and the length of its key, as [`kind`](Self::kind) does. The
    /// slots have a length of a wrapped key, and `scratch` is for one slot. A byte of `padded` is 1
    /// if the slot has the padded form, else 0.
    pub fn kind_many<'a>(
        &self,
        slots: &[u8],
        scratch: &mut [u8],
        padded: &'a mut [u8],
        key_lens: &'a mut [usize],
        statuses: &'a mut [Status],
    ) -> Result<impl Iterator<Item = Result<Kind>> + 'a> {
        let status = calls::kind_many(
            &self.0,
            slots,
            scratch,
            padded,
            key_lens,
            bytes_of(statuses),
        );
        let (count, scratch_len) = (statuses.len(), room(slot_len(slots, statuses)));
        let bad_length = if padded.len() != count || key_lens.len() != count {
            Error::InvalidOutputSize { expected: count }
        } else {
            Error::of_length(scratch.len() != scratch_len, scratch_len)
        };
        result_of(status, self.len(), bad_length)?;
        let all = padded.iter().zip(key_lens.iter().zip(statuses.iter()));
        Ok(all.map(|(padded, (key_len, status))| {
            status.result()?;
            Ok(Kind {
                form: Form::of(u32::from(*padded)),
                key_len: *key_len,
            })
        }))
    }
}

fn slot_len(slots: &[u8], statuses: &[Status]) -> usize {
    slots.len().checked_div(statuses.len()).unwrap_or(0)
}
