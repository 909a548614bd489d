//! Calls that check on the way that nothing but the result is written. Not every test file needs all of
//! them.

use second::coordinates;
use second::refusal::Refusal;
use second::sheet;
use strip_tests::files;
use strip_tests::generate;

/// The elements that a call writes, or number and offset.
pub type Checked<T> = Result<Vec<T>, (u32, usize)>;

/// Reads a sheet into a slice longer than any needs and gives the numbers.
#[allow(dead_code)]
pub fn read_checked(bytes: &[u8]) -> Checked<u16> {
    let length = sheet::NUMBER_LIMIT + 3;
    checked(0xa5a5, length, |slice| sheet::read(bytes, slice))
}

/// Writes a sheet into a slice longer than any needs and gives the bytes.
#[allow(dead_code)]
pub fn write_checked(numbers: &[u16]) -> Checked<u8> {
    let length = generate::LONGEST + 3;
    checked(0xa5, length, |slice| sheet::write(numbers, slice))
}

/// Reads a coordinate file into a slice longer than any needs and gives the numbers.
#[allow(dead_code)]
pub fn read_file_checked(file: &[u8]) -> Checked<u16> {
    let length = coordinates::NUMBER_LIMIT + 3;
    checked(0xa5a5, length, |slice| coordinates::read(file, slice))
}

/// Writes a coordinate file into a slice longer than any needs and gives the bytes.
#[allow(dead_code)]
pub fn write_file_checked(numbers: &[u16]) -> Checked<u8> {
    let length = files::LONGEST + 3;
    checked(0xa5, length, |slice| coordinates::write(numbers, slice))
}

/// Calls with a slice whose elements all hold the same, and gives those that are written.
fn checked<T: Copy + PartialEq>(
    filling: T,
    length: usize,
    call: impl FnOnce(&mut [T]) -> Result<usize, Refusal>,
) -> Checked<T> {
    let mut slice = vec![filling; length];
    let answer = call(&mut slice);
    let kept = slice.split_off(answer.unwrap_or(0));
    assert!(kept.iter().all(|&element| element == filling));
    match answer {
        Ok(_) => Ok(slice),
        Err(Refusal { number, offset }) => Err((number, offset)),
    }
}
