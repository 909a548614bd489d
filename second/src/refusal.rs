//! Refusals: why an input is not taken, and where.

/// The input ends before the sheet or the coordinate file does.
pub const ENDED: u32 = 1;
/// Three bytes are there and are not the signature of the format.
pub const NOT_A_SHEET: u32 = 2;
/// A number is not in its shortest form of at most two bytes.
pub const BAD_FORM: u32 = 3;
/// A number lies outside its limits.
pub const OUTSIDE_LIMITS: u32 = 4;
/// A maximum separation is set and is below its minimum separation.
pub const MAXIMUM_BELOW_MINIMUM: u32 = 5;
/// Something follows the last edge, or in a coordinate file the last node.
pub const EXCESS: u32 = 6;
/// A slice is too short for what is to be read or written there.
pub const SLICE_TOO_SHORT: u32 = 7;
/// No drawing exists.
pub const NO_DRAWING: u32 = 8;
/// No width within the limit has a drawing.
pub const NO_WIDTH: u32 = 10;
/// There are more widths than a list may have.
pub const MANY_WIDTHS: u32 = 11;

/// One of the numbers above, and an offset in bytes (for the writer and for widths: an index).
#[derive(Clone, Copy, Debug, PartialEq, Eq)]
pub struct Refusal {
    pub number: u32,
    pub offset: usize,
}

impl Refusal {
    /// Puts a refusal together.
    pub fn new(number: u32, offset: usize) -> Refusal {
        Refusal { number, offset }
    }
}
