//! The calls of which cases are made.

/// A call of a function, with slices of these lengths.
#[derive(Clone, Debug)]
pub enum Call {
    /// Reads a sheet from its bytes into a slice of so many numbers.
    Read { bytes: Vec<u8>, room: usize },
    /// Writes a sheet from its numbers into a slice of so many bytes.
    Write { numbers: Vec<u16>, room: usize },
    /// Reads one number at a position.
    ReadNumber { bytes: Vec<u8>, at: usize },
    /// Writes one number at a position of a slice of so many bytes.
    WriteNumber { n: u32, at: usize, room: usize },
    /// Checks a pull list.
    Check {
        bytes: Vec<u8>,
        places: Vec<u16>,
        list: Vec<i32>,
    },
    /// Draws a sheet into slices of so many places and so many list numbers.
    Draw {
        bytes: Vec<u8>,
        places: usize,
        list: usize,
    },
    /// Tells the minimum width of a sheet.
    Narrowest { bytes: Vec<u8> },
    /// Writes the totals of a sheet at widths into a slice of so many totals.
    Totals {
        bytes: Vec<u8>,
        widths: Vec<u32>,
        room: usize,
    },
    /// Reads a coordinate file into a slice of so many numbers.
    ReadDrawing { file: Vec<u8>, room: usize },
    /// Writes the coordinate file of a list into a slice of so many bytes.
    WriteDrawing { numbers: Vec<u16>, room: usize },
}
