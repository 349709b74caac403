//! Clearing memory, by writes that the compiler cannot leave out.

#![allow(unsafe_code)]

#[cfg(not(feature = "c"))]
use core::mem::MaybeUninit;
use core::sync::atomic::{compiler_fence, Ordering};

/// What is cleared at once: the largest number that every processor of the target writes at once.
#[cfg(target_arch = "x86_64")]
type Part = core::arch::x86_64::__m128i;
#[cfg(not(target_arch = "x86_64"))]
type Part = u64;

/// Writes zeros.
#[inline]
pub(crate) fn clear(bytes: &mut [u8]) {
    // SAFETY: any bytes are a number, and zeros are one.
    unsafe {
        let (first, parts, last) = bytes.align_to_mut::<Part>();
        write_zeros(first);
        write_zeros(parts);
        write_zeros(last);
    }
    compiler_fence(Ordering::SeqCst);
}

/// Writes zeros over values.
///
/// # Safety
///
/// Zeros are a value of the type.
#[inline(always)]
unsafe fn write_zeros<T>(values: &mut [T]) {
    for value in values {
        // SAFETY: the pointer comes from a reference. The caller promises the rest.
        unsafe { core::ptr::write_volatile(value, core::mem::zeroed()) };
    }
}

/// Writes this value over another one, which is not dropped.
#[cfg(not(feature = "c"))]
pub(crate) fn overwrite<T>(place: &mut T, value: T) {
    // SAFETY: the pointer comes from a reference.
    unsafe { core::ptr::write_volatile(place, value) };
    compiler_fence(Ordering::SeqCst);
}

/// Returns how many parts these bytes are.
#[cfg(not(feature = "c"))]
pub(crate) const fn parts(bytes: usize) -> usize {
    bytes / core::mem::size_of::<Part>()
}

/// Writes zeros over the stack below the caller's frame, where the calls that it made before left what
/// they had moved or spilled.
#[cfg(not(feature = "c"))]
#[inline(never)]
pub(crate) fn clear_stack<const PARTS: usize>() {
    let mut frame = [MaybeUninit::<Part>::uninit(); PARTS];
    // SAFETY: zeros are a number.
    unsafe { write_zeros(&mut frame) };
    compiler_fence(Ordering::SeqCst);
}
