//! Comparing readers and writers of sheets and of coordinate files.

use std::fmt::Debug;

use second::refusal::Refusal;
use second::{coordinates, sheet};

use crate::{near, Library};
use strip_tests::files;
use strip_tests::random::Random;

/// What every number holds before a call.
const NUMBER_FILL: u16 = 0xa5a5;
/// What every byte holds before a call.
const BYTE_FILL: u8 = 0xa5;
/// No sheet has more bytes.
const SHEET_BYTES: usize = 5121;

/// What is read and written.
#[derive(Clone, Copy, Debug)]
pub enum Format {
    Sheet,
    Coordinates,
}

/// Compares reading into slices of several lengths, and gives the numbers.
pub fn read(library: &impl Library, format: Format, bytes: &[u8]) -> Result<Vec<u16>, Refusal> {
    let most = match format {
        Format::Sheet => sheet::NUMBER_LIMIT,
        Format::Coordinates => coordinates::NUMBER_LIMIT,
    };
    several(most + 2, |room| read_into(library, format, bytes, room))
}

/// Compares writing into slices of several lengths, and gives the bytes.
pub fn write(library: &impl Library, format: Format, numbers: &[u16]) -> Result<Vec<u8>, Refusal> {
    let most = match format {
        Format::Sheet => SHEET_BYTES,
        Format::Coordinates => files::LONGEST,
    };
    several(most + 2, |room| write_into(library, format, numbers, room))
}

/// Compares reading into slices of this length, and gives the numbers.
pub fn read_into(
    library: &impl Library,
    format: Format,
    bytes: &[u8],
    room: usize,
) -> Result<Vec<u16>, Refusal> {
    same(
        lent(NUMBER_FILL, room, |slice| match format {
            Format::Sheet => library.read(bytes, slice),
            Format::Coordinates => library.read_drawing(bytes, slice),
        }),
        lent(NUMBER_FILL, room, |slice| match format {
            Format::Sheet => sheet::read(bytes, slice),
            Format::Coordinates => coordinates::read(bytes, slice),
        }),
        || format!("reading {format:?} {bytes:02x?}, length {room}"),
    )
}

/// Compares writing into slices of this length, and gives the bytes.
pub fn write_into(
    library: &impl Library,
    format: Format,
    numbers: &[u16],
    room: usize,
) -> Result<Vec<u8>, Refusal> {
    same(
        lent(BYTE_FILL, room, |slice| match format {
            Format::Sheet => library.write(numbers, slice),
            Format::Coordinates => library.write_drawing(numbers, slice),
        }),
        lent(BYTE_FILL, room, |slice| match format {
            Format::Sheet => sheet::write(numbers, slice),
            Format::Coordinates => coordinates::write(numbers, slice),
        }),
        || format!("writing {format:?} {numbers:?}, length {room}"),
    )
}

/// Compares writing the numbers that were read from these bytes, which gives the bytes again, and
/// writing lists near them.
pub fn written_back(
    library: &impl Library,
    random: &mut Random,
    format: Format,
    bytes: &[u8],
    numbers: &[u16],
) {
    let written = write(library, format, numbers);
    assert_eq!(written.as_deref(), Ok(bytes), "writing {numbers:?}");
    for list in near::numbers(random, numbers) {
        let _ = write(library, format, &list);
    }
}

/// A count or a refusal, and the slice after the call.
pub type Filled<T> = (Result<usize, Refusal>, Vec<T>);

/// Calls with a slice of so many elements that all hold the same.
pub fn lent<T: Clone>(
    filling: T,
    room: usize,
    call: impl FnOnce(&mut [T]) -> Result<usize, Refusal>,
) -> Filled<T> {
    let mut slice = vec![filling; room];
    let answer = call(&mut slice);
    (answer, slice)
}

/// Compares two answers with their slices, and gives the elements written.
pub fn same<T: PartialEq>(
    (found, theirs): Filled<T>,
    (expected, mut ours): Filled<T>,
    told: impl Fn() -> String,
) -> Result<Vec<T>, Refusal> {
    assert_eq!(found, expected, "{}", told());
    let differing = || (0..ours.len()).find(|&i| theirs[i] != ours[i]);
    assert!(theirs == ours, "{}, at {:?}", told(), differing());
    ours.truncate(expected?);
    Ok(ours)
}

/// Compares with slices of a length that is always enough, and where that succeeds of the exact
/// length, one more, one less and none.
fn several<T: PartialEq + Debug>(
    enough: usize,
    into: impl Fn(usize) -> Result<Vec<T>, Refusal>,
) -> Result<Vec<T>, Refusal> {
    let answer = into(enough);
    match &answer {
        Ok(elements) => {
            let exact = elements.len();
            for length in [exact, exact + 1, exact - 1, 0] {
                assert_eq!(into(length).is_ok(), length >= exact, "{elements:?}");
            }
        }
        Err(refusal) => assert_eq!(into(0), Err(*refusal)),
    }
    answer
}
