//! Single numbers in the second implementation, against the examples of DWARF 5 and the refusals of
//! document 01.

use second::number::{read, write, Placed};
use second::refusal::Refusal;

/// The unsigned LEB128 examples of DWARF 5 that fit into two bytes.
const PUBLISHED: [(u32, &[u8]); 5] = [
    (2, &[0x02]),
    (127, &[0x7f]),
    (128, &[0x80, 0x01]),
    (129, &[0x81, 0x01]),
    (12857, &[0xb9, 0x64]),
];

/// A refusal as `read` gives it.
fn refused(number: u32, offset: usize) -> Result<(u32, usize), Refusal> {
    Err(Refusal { number, offset })
}

#[test]
fn published_examples_are_read() {
    for (n, bytes) in PUBLISHED {
        assert_eq!(read(bytes, 0), Ok((n, bytes.len())));
    }
}

#[test]
fn published_examples_are_written() {
    for (n, bytes) in PUBLISHED {
        let mut slice = vec![0xa5; bytes.len()];
        assert_eq!(write(&mut slice, 0, n), Placed::Next(bytes.len()));
        assert_eq!(slice, bytes);
    }
}

#[test]
fn least_and_greatest_numbers_are_read() {
    assert_eq!(read(&[0x00], 0), Ok((0, 1)));
    assert_eq!(read(&[0xff, 0x7f], 0), Ok((16383, 2)));
    assert_eq!(read(&[0x00, 0x80, 0x20, 0x00], 1), Ok((4096, 3)));
}

#[test]
fn an_input_that_ends_is_refusal_1_at_its_length() {
    assert_eq!(read(&[], 0), refused(1, 0));
    assert_eq!(read(&[0x05, 0x06], 2), refused(1, 2));
    assert_eq!(read(&[0x05, 0x06], 3), refused(1, 2));
    assert_eq!(read(&[0x05, 0x06], usize::MAX), refused(1, 2));
    assert_eq!(read(&[0x05, 0x80], 1), refused(1, 2));
}

#[test]
fn a_bad_second_byte_is_refusal_3_at_the_first() {
    assert_eq!(read(&[0x80, 0x00], 0), refused(3, 0));
    assert_eq!(read(&[0x80, 0x80], 0), refused(3, 0));
    assert_eq!(read(&[0xff, 0xff, 0x03], 0), refused(3, 0));
    assert_eq!(read(&[0x05, 0xe5, 0x00], 1), refused(3, 1));
}

#[test]
fn numbers_without_a_form_are_not_written() {
    for n in [16384, 65535, u32::MAX] {
        let mut slice = [0xa5; 4];
        assert_eq!(write(&mut slice, 0, n), Placed::NoForm);
        assert_eq!(write(&mut slice, 9, n), Placed::NoForm);
        assert_eq!(slice, [0xa5; 4]);
    }
}

#[test]
fn numbers_without_room_are_not_written() {
    let mut slice = [0xa5; 4];
    for (n, at) in [(128, 3), (0, 4), (128, 4), (0, 5), (0, usize::MAX)] {
        assert_eq!(write(&mut slice, at, n), Placed::NoRoom);
    }
    assert_eq!(slice, [0xa5; 4]);
    assert_eq!(write(&mut [], 0, 0), Placed::NoRoom);
}

#[test]
fn only_the_bytes_of_the_number_change() {
    let mut slice = [0xa5; 5];
    assert_eq!(write(&mut slice, 1, 300), Placed::Next(3));
    assert_eq!(slice, [0xa5, 0xac, 0x02, 0xa5, 0xa5]);
    assert_eq!(write(&mut slice, 4, 7), Placed::Next(5));
    assert_eq!(slice, [0xa5, 0xac, 0x02, 0xa5, 0x07]);
}

#[test]
fn every_number_with_a_form_is_read_back() {
    for n in 0..16384 {
        let mut slice = [0xa5; 2];
        let length = if n < 128 { 1 } else { 2 };
        assert_eq!(write(&mut slice, 0, n), Placed::Next(length));
        assert_eq!(read(&slice[..length], 0), Ok((n, length)));
    }
}

#[test]
fn every_pair_of_bytes_that_is_read_is_written_back() {
    let mut taken = 0;
    for bytes in (0..=u16::MAX).map(u16::to_be_bytes) {
        if let Ok((n, next)) = read(&bytes, 0) {
            let mut slice = bytes;
            slice[..next].fill(0xa5);
            assert_eq!(write(&mut slice, 0, n), Placed::Next(next));
            assert_eq!(slice, bytes);
            taken += 1;
        }
    }
    assert_eq!(taken, 128 * 256 + 128 * 127);
}
