//! Path strips: read, write, draw and check sheets with the proved library, tell their minimum
//! width and their totals at other widths, and read and write coordinate files, which hold drawings.
//!
//! Every input is allowed: what has no answer is refused, with a number and an offset. On a refusal
//! no slice is written. Elements behind the last one written keep their contents. The functions
//! allocate nothing, have no state, and can be called from any thread.
//!
//! ```
//! let sheet = [0x53, 0x50, 0x31, 5, 2, 2, 1, 0, 1, 2, 1, 1, 1, 0, 1, 2, 1, 0];
//! let mut places = [0; strip::MAX_PLACES];
//! let mut list = [0; strip::MAX_LIST];
//! let total = strip::draw(&sheet, &mut places, &mut list)?;
//! assert_eq!((total, &places[..3]), (1, &[0, 1, 0][..]));
//! assert!(strip::check(&sheet, &places, &list)?);
//! # Ok::<(), strip::Refusal>(())
//! ```

use std::error::Error;
use std::fmt;

/// The version of this wrapper. A library of another MAJOR or MINOR gives no answer.
pub const VERSION: &str = env!("CARGO_PKG_VERSION");
// generated from strip.h, constants: begin
/// No sheet has more bytes.
pub const MAX_SHEET_BYTES: usize = 5121;
/// The greatest count of numbers in a sheet's number list.
pub const MAX_NUMBERS: usize = 2559;
/// The greatest count of places in a drawing: one for each node.
pub const MAX_PLACES: usize = 256;
/// The greatest count of numbers in a list: one for each edge and two for each node.
pub const MAX_LIST: usize = 1024;
/// The greatest count of numbers in the list of a coordinate file: the count of layers, one for
/// each layer and one for each node.
pub const MAX_DRAWING_NUMBERS: usize = 321;
/// No coordinate file has more bytes.
pub const MAX_DRAWING_BYTES: usize = 645;
/// The greatest count of widths in a list of widths.
pub const MAX_WIDTHS: usize = 64;
/// Stands among totals for a width at which the sheet has no drawing. No total is as great.
pub const NO_TOTAL: u32 = 4294967295;
/// The stack that any of the functions needs, in bytes.
pub const STACK_BYTES: usize = 53248;
// generated from strip.h, constants: end

/// Why there is no answer: the number of the refusal and where in the input.
#[derive(Clone, Copy, Debug, PartialEq, Eq)]
pub struct Refusal {
    /// One of the numbers below.
    pub number: u32,
    /// The offset of a byte in the sheet or file, from 0; for [`write`] and [`write_drawing`] the
    /// index of a number, for a width of [`totals`] its index in the list of widths.
    pub offset: u32,
}

/// The numbers of the refusals.
impl Refusal {
    // generated from strip.h, refusals: begin
    /// The input ends before the sheet or file does. The offset is the input's length.
    pub const INPUT_ENDED: u32 = 1;
    /// The first three bytes are not those of the format. They are 53 50 31 in a sheet, 53 44 31 in
    /// a coordinate file. Both readers meet it, each with the other's bytes too. The offset is 0.
    pub const NOT_A_SHEET: u32 = 2;
    /// A number is not in the fewest bytes, or takes more than two. The offset is that of the
    /// number's first byte.
    pub const NUMBER_FORM: u32 = 3;
    /// A number lies outside its limits. The offset is that of the number's first byte; of a width
    /// in a list of widths, its index there.
    pub const OUTSIDE_LIMITS: u32 = 4;
    /// A maximum separation is set and is below its minimum separation. The offset is that of the
    /// maximum's first byte.
    pub const SEPARATIONS_CROSSED: u32 = 5;
    /// Something follows the last edge of a sheet, or the last node of a coordinate file. The
    /// offset is that of the first byte too many.
    pub const SOMETHING_FOLLOWS: u32 = 6;
    /// A slice is too short for what is to be read or written there. The slice for totals is too
    /// short if it has fewer elements than there are widths. The offset is 0.
    pub const SLICE_SHORT: u32 = 7;
    /// No drawing exists. The offset is 0.
    pub const NO_DRAWING: u32 = 8;
    /// No width from 0 to 4,095 has a drawing. The offset is 0.
    pub const NO_WIDTH: u32 = 10;
    /// There are more than 64 widths. The offset is 0.
    pub const MANY_WIDTHS: u32 = 11;
    // generated from strip.h, refusals: end
}

impl Refusal {
    /// What the refusal means, in a sentence without its full stop.
    ///
    /// ```
    /// let refusal = strip::narrowest(b"SP2").unwrap_err();
    /// let text = "The first three bytes are not those of the format";
    /// assert_eq!(refusal.text(), text);
    /// assert_eq!(format!("{refusal}"), "refused 2 at 0");
    /// assert_eq!(format!("{refusal:#}"), format!("refused 2 at 0: {text}"));
    /// ```
    pub fn text(&self) -> &'static str {
        text_of(self.number)
    }
}

/// What a number means.
fn text_of(number: u32) -> &'static str {
    match number {
        // generated from strip.h, texts of refusals: begin
        1 => "The input ends before the sheet or file does",
        2 => "The first three bytes are not those of the format",
        3 => "A number is not in the fewest bytes, or takes more than two",
        4 => "A number lies outside its limits",
        5 => "A maximum separation is set and is below its minimum separation",
        6 => "Something follows the last edge of a sheet, or the last node of a coordinate file",
        7 => "A slice is too short for what is to be read or written there",
        8 => "No drawing exists",
        10 => "No width from 0 to 4,095 has a drawing",
        11 => "There are more than 64 widths",
        // generated from strip.h, texts of refusals: end
        _ => "No refusal has this number",
    }
}

/// The refusal as the program `place` prints it; in the form `{:#}` its text stands behind.
impl fmt::Display for Refusal {
    fn fmt(&self, formatter: &mut fmt::Formatter<'_>) -> fmt::Result {
        write!(formatter, "refused {} at {}", self.number, self.offset)?;
        match formatter.alternate() {
            true => write!(formatter, ": {}", self.text()),
            false => Ok(()),
        }
    }
}

impl Error for Refusal {}

/// The minimum width of a sheet, and the least total at that width.
#[derive(Clone, Copy, Debug, PartialEq, Eq)]
pub struct Narrowest {
    /// A drawing exists at this width, and at no smaller one.
    pub width: u16,
    /// The total of a least drawing at this width.
    pub total: u32,
}

/// The functions of the static library; the answer is second value · 2⁴⁸ + refusal number · 2³² +
/// value.
mod raw {
    extern "C" {
        // generated from strip.h, functions: begin
        pub fn strip_read(
            sheet: *const u8,
            sheet_len: usize,
            numbers: *mut u16,
            numbers_len: usize,
        ) -> u64;
        pub fn strip_write(
            numbers: *const u16,
            numbers_len: usize,
            sheet: *mut u8,
            sheet_len: usize,
        ) -> u64;
        pub fn strip_draw(
            sheet: *const u8,
            sheet_len: usize,
            places: *mut u16,
            places_len: usize,
            list: *mut i32,
            list_len: usize,
        ) -> u64;
        pub fn strip_check(
            sheet: *const u8,
            sheet_len: usize,
            places: *const u16,
            places_len: usize,
            list: *const i32,
            list_len: usize,
        ) -> u64;
        pub fn strip_narrowest(sheet: *const u8, sheet_len: usize) -> u64;
        pub fn strip_totals(
            sheet: *const u8,
            sheet_len: usize,
            widths: *const u32,
            widths_len: usize,
            totals: *mut u32,
            totals_len: usize,
        ) -> u64;
        pub fn strip_read_drawing(
            file: *const u8,
            file_len: usize,
            numbers: *mut u16,
            numbers_len: usize,
        ) -> u64;
        pub fn strip_write_drawing(
            numbers: *const u16,
            numbers_len: usize,
            file: *mut u8,
            file_len: usize,
        ) -> u64;
        pub fn strip_version() -> u32;
        // generated from strip.h, functions: end
    }
}

/// Reads the number list of a sheet into the front of a slice, and gives the count of numbers.
///
/// Refusals 1 to 7. A slice of [`MAX_NUMBERS`] is long enough for every sheet.
pub fn read(sheet: &[u8], numbers: &mut [u16]) -> Result<usize, Refusal> {
    // SAFETY: the pointers and lengths are those of two slices, and a `&mut` overlaps nothing.
    let answer = unsafe {
        raw::strip_read(
            sheet.as_ptr(),
            sheet.len(),
            numbers.as_mut_ptr(),
            numbers.len(),
        )
    };
    value(answer).map(|count| count as usize)
}

/// Writes the sheet of a number list into the front of a slice, and gives the count of bytes.
///
/// Refusals 1, 4, 5, 6 and 7. A slice of [`MAX_SHEET_BYTES`] is long enough for every sheet.
///
/// ```
/// let one_node = [0, 1, 1, 0];
/// let mut sheet = [0; 7];
/// assert_eq!(strip::write(&one_node, &mut sheet), Ok(7));
/// let refusal = strip::write(&one_node, &mut sheet[1..]).unwrap_err();
/// assert_eq!(refusal.to_string(), "refused 7 at 0");
/// ```
pub fn write(numbers: &[u16], sheet: &mut [u8]) -> Result<usize, Refusal> {
    // SAFETY: as in `read`.
    let answer = unsafe {
        raw::strip_write(
            numbers.as_ptr(),
            numbers.len(),
            sheet.as_mut_ptr(),
            sheet.len(),
        )
    };
    value(answer).map(|count| count as usize)
}

/// Writes the leftmost drawing of least total, and a list that shows it to be least, into the
/// fronts of two slices, and gives the total.
///
/// The total is the lengths of the edges, added, where parallel edges (those with the same two
/// ends) count once. The list starts with a pull for each edge, in the sheet's order: of parallel
/// edges the first carries the pull, and each later one's is 0.
///
/// Refusals 1 to 8. Slices of [`MAX_PLACES`] and [`MAX_LIST`] are long enough for every sheet.
///
/// ```
/// // one node over three: an edge to the first, and two parallel edges to the third
/// let sheet = [
///     0x53, 0x50, 0x31, 2, 2, 1, 3, 1, 0, 1, 0, 3, 1, 1, 1, 0, 1, 1, 3, 0, 1, 1, 3, 0,
/// ];
/// let (mut places, mut list) = ([0; 4], [0; 11]);
/// assert_eq!(strip::draw(&sheet, &mut places, &mut list), Ok(2));
/// assert_eq!((places, list[2]), ([0, 0, 1, 2], 0));
/// ```
pub fn draw(sheet: &[u8], places: &mut [u16], list: &mut [i32]) -> Result<u32, Refusal> {
    // SAFETY: as in `read`, with one slice more.
    let answer = unsafe {
        raw::strip_draw(
            sheet.as_ptr(),
            sheet.len(),
            places.as_mut_ptr(),
            places.len(),
            list.as_mut_ptr(),
            list.len(),
        )
    };
    value(answer)
}

/// Says whether the list shows that the places are a drawing of least total.
///
/// The total is that of [`draw`]. The pull of the first of parallel edges is −1, 0 or 1, or any
/// number where one of them is straight; where a later one's is not 0 the answer is no.
///
/// Refusals 1 to 7. Elements behind the ones that the sheet needs are not looked at.
pub fn check(sheet: &[u8], places: &[u16], list: &[i32]) -> Result<bool, Refusal> {
    // SAFETY: the pointers and lengths are those of three slices, which are only read.
    let answer = unsafe {
        raw::strip_check(
            sheet.as_ptr(),
            sheet.len(),
            places.as_ptr(),
            places.len(),
            list.as_ptr(),
            list.len(),
        )
    };
    value(answer).map(|word| word == 1)
}

/// Tells the minimum width of a sheet, the least at which it has a drawing, and the least total at
/// that width. The sheet's own width does not count.
///
/// Refusals 1 to 6 and 10.
///
/// ```
/// let two_nodes = [0x53, 0x50, 0x31, 0, 1, 2, 3, 0, 0];
/// let narrowest = strip::narrowest(&two_nodes)?;
/// assert_eq!((narrowest.width, narrowest.total), (3, 0));
/// # Ok::<(), strip::Refusal>(())
/// ```
pub fn narrowest(sheet: &[u8]) -> Result<Narrowest, Refusal> {
    // SAFETY: the pointer and the length are those of a slice, which is only read.
    let answer = unsafe { raw::strip_narrowest(sheet.as_ptr(), sheet.len()) };
    value(answer).map(|total| Narrowest {
        width: (answer >> 48) as u16,
        total,
    })
}

/// Writes the least total of a sheet at each width of a list into the front of a slice, and gives
/// the count of totals, one for each width. The sheet's own width does not count.
///
/// An entry is the total that [`draw`] gives for the sheet with that width, or [`NO_TOTAL`] if there
/// is no drawing. Widths may repeat and stand in any order.
///
/// Refusals 1 to 6 of the sheet; 11 if there are more than [`MAX_WIDTHS`] widths; 4 for the first
/// width above 4,095, its index as the offset; 7 if there are fewer totals than widths.
///
/// ```
/// // two nodes that are 3 or more apart, over one node with an edge to each
/// let sheet = [0x53, 0x50, 0x31, 0, 2, 2, 3, 0, 1, 2, 1, 1, 1, 0, 1, 2, 1, 0];
/// let mut totals = [0; 3];
/// assert_eq!(strip::totals(&sheet, &[4095, 2, 3], &mut totals), Ok(3));
/// assert_eq!(totals, [3, strip::NO_TOTAL, 3]);
/// let refusal = strip::totals(&sheet, &[3, 4096], &mut totals).unwrap_err();
/// assert_eq!(refusal.to_string(), "refused 4 at 1");
/// ```
pub fn totals(sheet: &[u8], widths: &[u32], totals: &mut [u32]) -> Result<usize, Refusal> {
    // SAFETY: as in `read`, with one slice more.
    let answer = unsafe {
        raw::strip_totals(
            sheet.as_ptr(),
            sheet.len(),
            widths.as_ptr(),
            widths.len(),
            totals.as_mut_ptr(),
            totals.len(),
        )
    };
    value(answer).map(|count| count as usize)
}

/// Reads a coordinate file into the front of a slice, and gives the count of numbers: the count of
/// layers, then for each layer its count of nodes and their places.
///
/// Refusals 1, 2, 3, 4, 6 and 7. A slice of [`MAX_DRAWING_NUMBERS`] is long enough for every file.
///
/// ```
/// let two_layers = [0x53, 0x44, 0x31, 2, 2, 5, 3, 1, 0];
/// let mut numbers = [0; strip::MAX_DRAWING_NUMBERS];
/// let count = strip::read_drawing(&two_layers, &mut numbers)?;
/// assert_eq!(numbers[..count], [2, 2, 5, 8, 1, 0]);
/// # Ok::<(), strip::Refusal>(())
/// ```
pub fn read_drawing(file: &[u8], numbers: &mut [u16]) -> Result<usize, Refusal> {
    // SAFETY: as in `read`.
    let answer = unsafe {
        raw::strip_read_drawing(
            file.as_ptr(),
            file.len(),
            numbers.as_mut_ptr(),
            numbers.len(),
        )
    };
    value(answer).map(|count| count as usize)
}

/// Writes the coordinate file of such a list into the front of a slice, and gives the count of
/// bytes.
///
/// Refusals 1, 4, 6 and 7. A slice of [`MAX_DRAWING_BYTES`] is long enough for every file.
///
/// ```
/// let mut file = [0; strip::MAX_DRAWING_BYTES];
/// assert_eq!(strip::write_drawing(&[1, 2, 5, 8], &mut file), Ok(7));
/// assert_eq!(file[..7], [0x53, 0x44, 0x31, 1, 2, 5, 3]);
/// let refusal = strip::write_drawing(&[1, 2, 5, 5], &mut file).unwrap_err();
/// assert_eq!(refusal.to_string(), "refused 4 at 3");
/// ```
pub fn write_drawing(numbers: &[u16], file: &mut [u8]) -> Result<usize, Refusal> {
    // SAFETY: as in `read`.
    let answer = unsafe {
        raw::strip_write_drawing(
            numbers.as_ptr(),
            numbers.len(),
            file.as_mut_ptr(),
            file.len(),
        )
    };
    value(answer).map(|count| count as usize)
}

/// The version of the library that is linked: MAJOR, MINOR and PATCH.
pub fn version() -> [u32; 3] {
    // SAFETY: the function takes nothing.
    let version = unsafe { raw::strip_version() };
    [version >> 16, version >> 8 & 0xFF, version & 0xFF]
}

/// MAJOR and MINOR of this wrapper.
const RULES: [u32; 2] = [
    number(env!("CARGO_PKG_VERSION_MAJOR")),
    number(env!("CARGO_PKG_VERSION_MINOR")),
];

/// The number that decimal digits stand for.
const fn number(digits: &str) -> u32 {
    let (mut number, mut at) = (0, 0);
    while at < digits.len() {
        number = 10 * number + (digits.as_bytes()[at] - b'0') as u32;
        at += 1;
    }
    number
}

/// What is wrong with a library of this version, if something is: only the same MAJOR and MINOR
/// answer as this wrapper says.
fn mismatch([major, minor, patch]: [u32; 3]) -> Option<String> {
    if [major, minor] == RULES {
        return None;
    }
    let library = format!("{major}.{minor}.{patch}");
    Some(format!(
        "strip {VERSION} is linked with a library of version {library}"
    ))
}

/// The value of an answer, or the refusal.
///
/// # Panics
///
/// If the library has another MAJOR or MINOR.
fn value(answer: u64) -> Result<u32, Refusal> {
    if let Some(line) = mismatch(version()) {
        panic!("{line}");
    }
    let (number, value) = (u32::from((answer >> 32) as u16), answer as u32);
    match number {
        0 => Ok(value),
        _ => Err(Refusal {
            number,
            offset: value,
        }),
    }
}

#[cfg(test)]
mod tests {
    use super::{mismatch, version, VERSION};

    #[test]
    fn a_library_of_other_rules_is_refused() {
        let [major, minor, patch] = version();
        assert_eq!(VERSION, format!("{major}.{minor}.{patch}"));
        assert_eq!(mismatch([major, minor, patch + 1]), None);
        let line = format!("strip {VERSION} is linked with a library of version {major}.99.0");
        assert_eq!(mismatch([major, 99, 0]), Some(line));
        assert!(mismatch([major + 1, minor, patch]).is_some());
    }
}
