//! What libFuzzer calls: trying one input, and changing one input to another.
//!
//! An input is the bytes of a sheet or of a coordinate file, good or not. A difference between the
//! library and the second implementation panics, and a panic ends the program, so that libFuzzer
//! reports the input.

mod change;
#[cfg(feature = "fault")]
mod fault;
mod parts;
mod rows;

use std::slice;

use strip_tests::random::Random;

#[cfg(not(feature = "fault"))]
use compare::Proved as Tried;
#[cfg(feature = "fault")]
use fault::Faulty as Tried;

extern "C" {
    /// Changes bytes in place in one of libFuzzer's own ways, and gives the new length.
    fn LLVMFuzzerMutate(data: *mut u8, size: usize, max_size: usize) -> usize;
}

/// Compares everything on an input.
///
/// # Safety
///
/// The pointer must be valid for so many bytes.
#[no_mangle]
pub unsafe extern "C" fn LLVMFuzzerTestOneInput(data: *const u8, size: usize) -> i32 {
    // SAFETY: libFuzzer gives a pointer and its length; an empty input may have any pointer.
    let bytes = match size {
        0 => &[],
        _ => unsafe { slice::from_raw_parts(data, size) },
    };
    compare::sheet(&Tried, bytes);
    0
}

/// Changes an input: a good sheet or coordinate file as a rule to another good one, anything else byte
/// by byte.
///
/// # Safety
///
/// The pointer must be valid for the greatest size, of which the first bytes are the input.
#[no_mangle]
pub unsafe extern "C" fn LLVMFuzzerCustomMutator(
    data: *mut u8,
    size: usize,
    max_size: usize,
    seed: u32,
) -> usize {
    let mut random = Random::new(seed.into());
    // SAFETY: libFuzzer gives a block of the greatest size.
    let block = unsafe { slice::from_raw_parts_mut(data, max_size) };
    match change::input(&mut random, &block[..size]) {
        Some(bytes) if bytes.len() <= max_size => {
            block[..bytes.len()].copy_from_slice(&bytes);
            bytes.len()
        }
        // SAFETY: as above.
        _ => unsafe { LLVMFuzzerMutate(data, size, max_size) },
    }
}
