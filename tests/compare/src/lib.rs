//! Compares a library with the second implementation: what both answer, and what both leave in every
//! slice. The library is the proved one, or one with a fault.
//!
//! Every function here panics where the two differ. Only the pull list of a drawing may be another
//! one; both checkers must accept it.

mod checking;
pub mod coordinates;
mod drawing;
mod format;
mod library;
mod narrowest;
mod near;
pub mod page;
mod tally;
pub mod totals;

use second::drawing::Sheet;
use second::minimum_width::Minimum;
use second::refusal::Refusal;
use strip_tests::cases::Call;
use strip_tests::random::Random;
use totals::Entries;

pub use checking::judge;
pub use format::{read, read_into, write, write_into, Format};
pub use library::{Library, Proved};
pub use tally::{grouped, scale, Tally};

/// What both answer to a sheet, and how often both checkers say yes and no.
#[derive(Clone, Debug)]
pub struct Outcome {
    /// The total and the places, or why the sheet is not drawn.
    pub drawn: Result<(u32, Vec<u16>), Refusal>,
    /// The minimum width with the least total there, or why there is none.
    pub minimum: Result<Minimum, Refusal>,
    /// The totals at widths.
    pub entries: Entries,
    pub yes: usize,
    pub no: usize,
}

/// Compares all that is answered to these bytes: reading them as a sheet and as a coordinate file,
/// writing what is read, drawing, the coordinate file of the drawing, checking the drawing and near
/// misses of it, the minimum width, and the totals at other widths.
pub fn sheet(library: &impl Library, bytes: &[u8]) -> Outcome {
    let mut random = Random::new(seed(bytes));
    for format in [Format::Sheet, Format::Coordinates] {
        let _ = write(library, format, &pairs(bytes));
    }
    let _ = coordinates::file(library, bytes);
    match read(library, Format::Sheet, bytes) {
        Ok(numbers) => {
            format::written_back(library, &mut random, Format::Sheet, bytes, &numbers);
            let sheet = Sheet::from_numbers(&numbers);
            let drawn = drawing::good(library, bytes, &sheet);
            if let Ok(drawn) = &drawn {
                coordinates::drawn(library, &sheet, &drawn.places);
            }
            let (yes, no) = checking::good(library, &mut random, bytes, &sheet, drawn.as_ref());
            let minimum = narrowest::good(library, bytes, &numbers);
            let is_enough = minimum.is_ok_and(|minimum| minimum.width <= sheet.width);
            assert_eq!(drawn.is_ok(), is_enough, "{minimum:?} of {bytes:02x?}");
            let least = minimum.ok().map(|minimum| minimum.width);
            Outcome {
                drawn: drawn.map(|drawn| (drawn.total, drawn.places)),
                minimum,
                entries: totals::good(library, bytes, &numbers, least),
                yes,
                no,
            }
        }
        Err(refusal) => {
            drawing::bad(library, bytes);
            checking::bad(library, bytes);
            totals::bad(library, bytes);
            Outcome {
                drawn: Err(refusal),
                minimum: narrowest::told(library, bytes),
                entries: Entries::default(),
                yes: 0,
                no: 0,
            }
        }
    }
}

/// Compares what is answered to a case, and what it leaves in its slices: `true` where it is taken or
/// gets a yes. There is nothing where the library has no such function.
pub fn call(library: &impl Library, call: &Call) -> Option<Result<bool, Refusal>> {
    match call {
        Call::Read { bytes, room } => {
            Some(read_into(library, Format::Sheet, bytes, *room).map(|_| true))
        }
        Call::Write { numbers, room } => {
            Some(write_into(library, Format::Sheet, numbers, *room).map(|_| true))
        }
        Call::ReadNumber { .. } | Call::WriteNumber { .. } => None,
        Call::Check {
            bytes,
            places,
            list,
        } => Some(judge(library, bytes, places, list)),
        Call::Draw {
            bytes,
            places,
            list,
        } => Some(drawing::into(library, bytes, *places, *list).map(|_| true)),
        Call::Narrowest { bytes } => Some(narrowest::told(library, bytes).map(|_| true)),
        Call::Totals {
            bytes,
            widths,
            room,
        } => Some(totals::into(library, bytes, widths, *room).map(|_| true)),
        Call::ReadDrawing { file, room } => {
            Some(read_into(library, Format::Coordinates, file, *room).map(|_| true))
        }
        Call::WriteDrawing { numbers, room } => {
            Some(write_into(library, Format::Coordinates, numbers, *room).map(|_| true))
        }
    }
}

/// The bytes two by two, as 16-bit numbers.
fn pairs(bytes: &[u8]) -> Vec<u16> {
    let pair = |pair: &[u8]| u16::from_le_bytes([pair[0], pair[1]]);
    bytes.chunks_exact(2).map(pair).collect()
}

/// A seed that depends on the bytes only.
fn seed(bytes: &[u8]) -> u64 {
    let mix = |seed: u64, &byte: &u8| (seed ^ u64::from(byte)).wrapping_mul(0x100_0000_01b3);
    bytes.iter().fold(0xcbf2_9ce4_8422_2325, mix)
}
