//! Comparing what is answered to coordinate files.

use crate::format::{read, write, written_back, Format};
use crate::{seed, Library};
use second::drawing::Sheet;
use second::refusal::{Refusal, NOT_A_SHEET};
use strip_tests::damage::DAMAGES;
use strip_tests::files::Rows;
use strip_tests::random::Random;

/// Compares all that is answered to these bytes as a coordinate file, and gives the numbers: reading
/// them, and where they are taken writing what is read and lists near it. No sheet is such a file.
pub fn file(library: &impl Library, bytes: &[u8]) -> Result<Vec<u16>, Refusal> {
    let numbers = read(library, Format::Coordinates, bytes)?;
    let mut random = Random::new(seed(bytes));
    written_back(library, &mut random, Format::Coordinates, bytes, &numbers);
    let sheet = read(library, Format::Sheet, bytes);
    assert_eq!(sheet, Err(Refusal::new(NOT_A_SHEET, 0)), "{bytes:02x?}");
    Ok(numbers)
}

/// Compares the coordinate file of a drawing, and the file with damage of one kind: the list of the
/// drawing is written, and read back from the file.
pub fn drawn(library: &impl Library, sheet: &Sheet, places: &[u16]) {
    let rows = Rows::of(sheet, places);
    let (numbers, bytes) = (rows.numbers(), rows.bytes());
    let written = write(library, Format::Coordinates, &numbers);
    assert_eq!(written.as_ref(), Ok(&bytes), "writing {numbers:?}");
    assert_eq!(file(library, &bytes), Ok(numbers));
    let mut random = Random::new(seed(&bytes));
    let (_, damage) = DAMAGES[random.index(DAMAGES.len())];
    let _ = file(library, &damage(&mut random, &bytes));
}
