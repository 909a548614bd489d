//! What is made of good inputs for the driver, whatever their format.

use super::Reader;
use crate::damage::DAMAGES;
use crate::mutation::{byte_changes, changed, damages, truncated};
use crate::random::Random;

/// The input, damaged in every way.
pub fn every_damage(bytes: &[u8]) -> Vec<Vec<u8>> {
    let kinds = damages(bytes, byte_changes).into_iter();
    kinds.flat_map(|(_, damaged)| damaged).collect()
}

/// Three damaged ones of an input, of kinds that go by its number, and the input.
pub fn some_damage(random: &mut Random, number: usize, bytes: Vec<u8>) -> Vec<Vec<u8>> {
    let kinds = DAMAGES.iter().skip(number % 4).step_by(4);
    let mut inputs: Vec<_> = kinds.map(|(_, damage)| damage(random, &bytes)).collect();
    inputs.push(bytes);
    inputs
}

/// The input with many bytes behind it, cut off, and as it is.
pub fn lengths(bytes: Vec<u8>) -> [Vec<u8>; 3] {
    let longer = [bytes.as_slice(), &[0; 4096]].concat();
    let shorter = bytes[..bytes.len() - 1].to_vec();
    [longer, shorter, bytes]
}

/// A number list damaged in every way, each number changed as `changes` says, and the number lists of
/// the good inputs.
pub fn lists(
    first: &[u16],
    changes: fn(u16) -> Vec<u16>,
    inputs: &[Vec<u8>],
    read: Reader,
) -> Vec<Vec<u16>> {
    let mut lists = [truncated(first), changed(first, changes)].concat();
    lists.push([first, &[1]].concat());
    for bytes in inputs {
        let mut numbers = vec![0; bytes.len()];
        if let Ok(count) = read(bytes, &mut numbers) {
            numbers.truncate(count);
            lists.push(numbers);
        }
    }
    lists
}
