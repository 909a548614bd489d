//! The functions of a library, and the proved library.

use second::minimum_width::Minimum;
use second::refusal::Refusal;

/// The functions of a library, as documents 01 and 02 have them. Each is the proved one if nothing
/// else is said, so a library with a fault names its fault alone.
pub trait Library {
    /// Reads a sheet's numbers into the front of a slice, and gives their count.
    fn read(&self, sheet: &[u8], numbers: &mut [u16]) -> Result<usize, Refusal> {
        strip::read(sheet, numbers).map_err(refusal)
    }

    /// Writes the sheet of a number list into the front of a slice, and gives the count of bytes.
    fn write(&self, numbers: &[u16], sheet: &mut [u8]) -> Result<usize, Refusal> {
        strip::write(numbers, sheet).map_err(refusal)
    }

    /// Writes the drawing of a sheet and a pull list into the fronts of slices, and gives the total.
    fn draw(&self, sheet: &[u8], places: &mut [u16], list: &mut [i32]) -> Result<u32, Refusal> {
        strip::draw(sheet, places, list).map_err(refusal)
    }

    /// Says whether a list shows that places are a drawing of least total.
    fn check(&self, sheet: &[u8], places: &[u16], list: &[i32]) -> Result<bool, Refusal> {
        strip::check(sheet, places, list).map_err(refusal)
    }

    /// Tells the minimum width of a sheet, and the least total there.
    fn narrowest(&self, sheet: &[u8]) -> Result<Minimum, Refusal> {
        let minimum = |found: strip::Narrowest| Minimum {
            width: found.width,
            total: found.total,
        };
        strip::narrowest(sheet).map(minimum).map_err(refusal)
    }

    /// Writes the least total of a sheet at each of some widths into the front of a slice, and gives
    /// their count.
    fn totals(&self, sheet: &[u8], widths: &[u32], totals: &mut [u32]) -> Result<usize, Refusal> {
        strip::totals(sheet, widths, totals).map_err(refusal)
    }

    /// Reads the numbers of a coordinate file into the front of a slice, and gives their count.
    fn read_drawing(&self, file: &[u8], numbers: &mut [u16]) -> Result<usize, Refusal> {
        strip::read_drawing(file, numbers).map_err(refusal)
    }

    /// Writes the coordinate file of a list into the front of a slice, and gives the count of bytes.
    fn write_drawing(&self, numbers: &[u16], file: &mut [u8]) -> Result<usize, Refusal> {
        strip::write_drawing(numbers, file).map_err(refusal)
    }
}

/// The proved library, through its Rust wrapper.
pub struct Proved;

impl Library for Proved {}

/// A refusal of the wrapper as one of the second implementation.
fn refusal(refusal: strip::Refusal) -> Refusal {
    Refusal::new(refusal.number, refusal.offset as usize)
}
