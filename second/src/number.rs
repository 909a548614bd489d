//! Numbers in unsigned LEB128 (DWARF 5, section 7.6), one or two bytes, always the fewest.

use crate::refusal::{Refusal, BAD_FORM, ENDED};

/// The bit of a byte that says another byte follows.
const MORE: u8 = 0x80;
/// How many bits of the number one byte holds.
const GROUP: u32 = 7;
/// The first number that needs two bytes.
const TWO_BYTES_FROM: u32 = 1 << GROUP;
/// The first number that two bytes cannot hold.
const NO_FORM_FROM: u32 = 1 << (2 * GROUP);

/// What becomes of a number that is to be written.
#[derive(Clone, Copy, Debug, PartialEq, Eq)]
pub enum Placed {
    /// The number is written; the next one goes to this position.
    Next(usize),
    /// The number does not fit into two bytes.
    NoForm,
    /// The slice has too few bytes left.
    NoRoom,
}

/// Reads the number at position `at` and gives it with the position behind it.
pub fn read(bytes: &[u8], at: usize) -> Result<(u32, usize), Refusal> {
    let ended = Refusal::new(ENDED, bytes.len());
    match *bytes.get(at..).unwrap_or_default() {
        [] => Err(ended),
        [only, ..] if only < MORE => Ok((only.into(), at + 1)),
        [_] => Err(ended),
        [_, high, ..] if high == 0 || high >= MORE => Err(Refusal::new(BAD_FORM, at)),
        [low, high, ..] => {
            let value = u32::from(low - MORE) + (u32::from(high) << GROUP);
            Ok((value, at + 2))
        }
    }
}

/// Writes `n` at position `at`, or nothing at all.
pub fn write(slice: &mut [u8], at: usize, n: u32) -> Placed {
    let Some(form) = form(n) else {
        return Placed::NoForm;
    };
    let tail = slice.get_mut(at..).unwrap_or_default();
    match tail.get_mut(..form.len()) {
        Some(target) => {
            target.copy_from_slice(&form);
            Placed::Next(at + form.len())
        }
        None => Placed::NoRoom,
    }
}

/// The bytes of `n`, if two are enough.
pub fn form(n: u32) -> Option<Vec<u8>> {
    let low = (n % TWO_BYTES_FROM) as u8;
    let high = n / TWO_BYTES_FROM;
    if n < TWO_BYTES_FROM {
        Some(vec![low])
    } else if n < NO_FORM_FROM {
        Some(vec![low | MORE, high as u8])
    } else {
        None
    }
}
