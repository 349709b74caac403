//! The refusals.

use crate::calls;
use crate::sys::{
    KEYWRAP_BAD_IV, KEYWRAP_BAD_KEK, KEYWRAP_BAD_LENGTH, KEYWRAP_INTEGRITY, KEYWRAP_KEY_NOT_PLAIN,
    KEYWRAP_OK,
};
use core::fmt;

/// A refusal. It reveals nothing of a key.
#[derive(Clone, Copy, Debug, PartialEq, Eq)]
#[non_exhaustive]
pub enum Error {
    /// The integrity check failed: another KEK, form or initial value, or damage.
    IntegrityCheckFailed,
    /// The call does not accept the length of the key, the wrapped key or the slots.
    InvalidDataSize,
    /// The KEK is not 16, 24 or 32 bytes long, or has another length than its type.
    InvalidKekSize {
        /// The length of the KEK.
        size: usize,
    },
    /// The buffer for the result has a wrong length.
    InvalidOutputSize {
        /// The right length.
        expected: usize,
    },
    /// The initial value begins with a6 59 59 a6, which is reserved for the padded form.
    InvalidIv,
    /// The wrapped key is genuine, but no plain key has the length of its key.
    KeyNotPlain,
    /// A step after the last step, or an end before it.
    InvalidStep,
}

/// The result of a call.
pub type Result<T> = core::result::Result<T, Error>;

impl Error {
    /// Which length `KEYWRAP_BAD_LENGTH` is about: the data's, or else the output's.
    pub(crate) fn of_length(data_is_legal: bool, expected: usize) -> Error {
        if data_is_legal {
            Error::InvalidOutputSize { expected }
        } else {
            Error::InvalidDataSize
        }
    }

    /// The status of the same refusal in C.
    fn status(self) -> i32 {
        match self {
            Error::IntegrityCheckFailed => KEYWRAP_INTEGRITY,
            Error::InvalidDataSize | Error::InvalidOutputSize { .. } | Error::InvalidStep => {
                KEYWRAP_BAD_LENGTH
            }
            Error::InvalidKekSize { .. } => KEYWRAP_BAD_KEK,
            Error::InvalidIv => KEYWRAP_BAD_IV,
            Error::KeyNotPlain => KEYWRAP_KEY_NOT_PLAIN,
        }
    }
}

/// The result of a call of C that returned this status. `bad_length` is what `KEYWRAP_BAD_LENGTH`
/// means in this call, and `kek_size` the length of the KEK that `KEYWRAP_BAD_KEK` is about.
pub(crate) fn result_of(status: i32, kek_size: usize, bad_length: Error) -> Result<()> {
    match status {
        KEYWRAP_OK => Ok(()),
        KEYWRAP_BAD_IV => Err(Error::InvalidIv),
        KEYWRAP_BAD_KEK => Err(Error::InvalidKekSize { size: kek_size }),
        KEYWRAP_BAD_LENGTH => Err(bad_length),
        KEYWRAP_KEY_NOT_PLAIN => Err(Error::KeyNotPlain),
        // KEYWRAP_INTEGRITY, or a status that this version does not know.
        _ => Err(Error::IntegrityCheckFailed),
    }
}

impl fmt::Display for Error {
    fn fmt(&self, f: &mut fmt::Formatter<'_>) -> fmt::Result {
        let mut text = [0; 80];
        let len = calls::status_text(self.status(), &mut text);
        let text = text.get(..len).unwrap_or(&text);
        f.write_str(core::str::from_utf8(text).unwrap_or("refused"))?;
        match self {
            Error::InvalidKekSize { size } => write!(f, ": {} bytes", size),
            Error::InvalidOutputSize { expected } => {
                write!(f, ": the output needs {} bytes", expected)
            }
            Error::InvalidStep => f.write_str(": a step after the last, or an end before it"),
            _ => Ok(()),
        }
    }
}

#[cfg(feature = "std")]
impl std::error::Error for Error {}

#[cfg(test)]
mod tests {
    use super::{result_of, Error};

    #[test]
    fn only_status_0_is_a_success() {
        for status in (-300..300).chain([i32::MIN, i32::MAX]) {
            let result = result_of(status, 15, Error::InvalidDataSize);
            let expected = match status {
                0 => Ok(()),
                2 => Err(Error::InvalidIv),
                3 => Err(Error::InvalidKekSize { size: 15 }),
                4 => Err(Error::InvalidDataSize),
                8 => Err(Error::KeyNotPlain),
                _ => Err(Error::IntegrityCheckFailed),
            };
            assert_eq!(result, expected, "{}", status);
        }
    }
}
