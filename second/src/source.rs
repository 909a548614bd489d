//! Where the numbers of a format come from: the bytes of a file, or a number list.

use std::ops::RangeInclusive;

use crate::number;
use crate::refusal::{Refusal, ENDED, EXCESS, NOT_A_SHEET, OUTSIDE_LIMITS, SLICE_TOO_SHORT};

/// Numbers that are taken one after the other.
pub trait Source {
    /// The offset of the next number.
    fn at(&self) -> usize;
    /// Whether nothing is left.
    fn is_empty(&self) -> bool;
    /// Takes the next number.
    fn take(&mut self) -> Result<u32, Refusal>;

    /// Takes the next number and tests it against its limits; empty limits admit nothing.
    fn number(&mut self, limits: RangeInclusive<u16>) -> Result<u16, Refusal> {
        let offset = self.at();
        let value = self.take()?;
        match u16::try_from(value) {
            Ok(n) if limits.contains(&n) => Ok(n),
            _ => Err(Refusal::new(OUTSIDE_LIMITS, offset)),
        }
    }

    /// Refuses what is left.
    fn end(&self) -> Result<(), Refusal> {
        match self.is_empty() {
            true => Ok(()),
            false => Err(Refusal::new(EXCESS, self.at())),
        }
    }
}

/// The bytes of a file, read up to a position.
pub struct Bytes<'a> {
    bytes: &'a [u8],
    at: usize,
}

impl Bytes<'_> {
    /// Bytes that start with a signature, read up to its end.
    pub fn behind(signature: [u8; 3], bytes: &[u8]) -> Result<Bytes<'_>, Refusal> {
        if bytes.len() < signature.len() {
            return Err(Refusal::new(ENDED, bytes.len()));
        }
        if !bytes.starts_with(&signature) {
            return Err(Refusal::new(NOT_A_SHEET, 0));
        }
        let at = signature.len();
        Ok(Bytes { bytes, at })
    }
}

impl Source for Bytes<'_> {
    fn at(&self) -> usize {
        self.at
    }

    fn is_empty(&self) -> bool {
        self.at == self.bytes.len()
    }

    fn take(&mut self) -> Result<u32, Refusal> {
        let (value, next) = number::read(self.bytes, self.at)?;
        self.at = next;
        Ok(value)
    }
}

/// A number list, read up to an index.
pub struct List<'a> {
    numbers: &'a [u16],
    at: usize,
}

impl List<'_> {
    /// A list of which nothing is read.
    pub fn new(numbers: &[u16]) -> List<'_> {
        List { numbers, at: 0 }
    }
}

impl Source for List<'_> {
    fn at(&self) -> usize {
        self.at
    }

    fn is_empty(&self) -> bool {
        self.at == self.numbers.len()
    }

    fn take(&mut self) -> Result<u32, Refusal> {
        match self.numbers.get(self.at) {
            Some(&value) => {
                self.at += 1;
                Ok(value.into())
            }
            None => Err(Refusal::new(ENDED, self.numbers.len())),
        }
    }
}

/// The bytes of numbers within their limits, behind a signature.
pub fn encoded(signature: [u8; 3], numbers: impl IntoIterator<Item = u16>) -> Vec<u8> {
    let mut bytes = signature.to_vec();
    for n in numbers {
        let form = number::form(n.into()).expect("a number within its limits has a form");
        bytes.extend(form);
    }
    bytes
}

/// Copies the elements to the front of a slice, or refuses a slice that is too short.
pub fn fill_front<T: Copy>(slice: &mut [T], elements: &[T]) -> Result<usize, Refusal> {
    match slice.get_mut(..elements.len()) {
        Some(front) => {
            front.copy_from_slice(elements);
            Ok(elements.len())
        }
        None => Err(Refusal::new(SLICE_TOO_SHORT, 0)),
    }
}
