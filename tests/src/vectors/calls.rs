//! Calls with slices that are long enough for every sheet, list of widths and coordinate file.

use crate::cases::Call;
use second::coordinates;
use second::sheet::NUMBER_LIMIT;
use second::totals::WIDTHS_LIMIT;

use super::Vector;

/// The length of a slice of bytes that is enough for every sheet.
const SHEET_BYTES: usize = 5121;
/// The length of a slice of bytes that is enough for every coordinate file.
const FILE_BYTES: usize = 645;
/// The length of a slice of places that is enough for every sheet.
const PLACES: usize = 256;
/// The length of a slice for the pull list that is enough for every sheet.
const LIST: usize = 1024;

/// Calls below a note.
pub fn noted(note: &str, calls: impl IntoIterator<Item = Call>) -> Vec<Vector> {
    let vector = |call| Vector {
        note: note.to_string(),
        call,
    };
    calls.into_iter().map(vector).collect()
}

/// Reads a sheet into a slice that is long enough for every sheet.
pub fn read(bytes: &[u8]) -> Call {
    Call::Read {
        bytes: bytes.to_vec(),
        room: NUMBER_LIMIT,
    }
}

/// Draws a sheet into slices that are long enough for every sheet.
pub fn draw(bytes: &[u8]) -> Call {
    Call::Draw {
        bytes: bytes.to_vec(),
        places: PLACES,
        list: LIST,
    }
}

/// Checks a list.
pub fn check(bytes: &[u8], places: &[u16], list: &[i32]) -> Call {
    Call::Check {
        bytes: bytes.to_vec(),
        places: places.to_vec(),
        list: list.to_vec(),
    }
}

/// Asks for the minimum width of a sheet.
pub fn narrow(bytes: &[u8]) -> Call {
    let bytes = bytes.to_vec();
    Call::Narrowest { bytes }
}

/// Asks for the totals of a sheet at widths, in a slice that is long enough for every list.
pub fn totals(bytes: &[u8], widths: &[u32]) -> Call {
    Call::Totals {
        bytes: bytes.to_vec(),
        widths: widths.to_vec(),
        room: WIDTHS_LIMIT,
    }
}

/// Reads a coordinate file into a slice that is long enough for every file.
pub fn read_file(file: &[u8]) -> Call {
    Call::ReadDrawing {
        file: file.to_vec(),
        room: coordinates::NUMBER_LIMIT,
    }
}

/// Writes a sheet into a slice that is long enough for every sheet.
pub fn write(numbers: &[u16]) -> Call {
    Call::Write {
        numbers: numbers.to_vec(),
        room: SHEET_BYTES,
    }
}

/// Writes a coordinate file into a slice that is long enough for every file.
pub fn write_file(numbers: &[u16]) -> Call {
    Call::WriteDrawing {
        numbers: numbers.to_vec(),
        room: FILE_BYTES,
    }
}
