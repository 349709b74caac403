//! The AES instructions of the processor. This is where the crate has to trust more than the proofs.

/// The blocks of a group, which the processor works on side by side.
const GROUP: usize = 8;

/// The bytes of a group.
pub(super) const GROUP_BYTES: usize = 16 * GROUP;

#[cfg(all(target_arch = "x86_64", not(feature = "tables")))]
mod x86_64;
#[cfg(all(target_arch = "x86_64", not(feature = "tables")))]
pub(super) use x86_64::Instructions;

#[cfg(all(
    target_arch = "aarch64",
    target_endian = "little",
    not(feature = "tables")
))]
mod aarch64;
#[cfg(all(
    target_arch = "aarch64",
    target_endian = "little",
    not(feature = "tables")
))]
pub(super) use aarch64::Instructions;

#[cfg(any(
    feature = "tables",
    not(any(
        target_arch = "x86_64",
        all(target_arch = "aarch64", target_endian = "little")
    ))
))]
mod none;
#[cfg(any(
    feature = "tables",
    not(any(
        target_arch = "x86_64",
        all(target_arch = "aarch64", target_endian = "little")
    ))
))]
pub(super) use none::Instructions;
